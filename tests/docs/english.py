"""Finds sentences that are too long, and words to avoid, in documents that a person reads.

A sentence has at most 30 words, outside code and pictures; a cell of a table and an item of a list end one. Words to avoid are those
for which plain English has another one. What is right all the same is listed in tests/docs/exceptions: on each line the beginning of
a sentence, or the words around the one to avoid. A line there that no document has any more is a fault too.
"""

import pathlib
import re

ROOT = pathlib.Path(__file__).resolve().parent.parent.parent
EXCEPTIONS = pathlib.Path(__file__).resolve().parent / "exceptions"
# How many words a sentence has at most.
MOST = 30
# Words to avoid, each with the one to write.
AVOIDED = {
    r"[Ww]ants? of memory|[Ww]ant(?:s|ed) memory": "out of memory",
    r"[Bb]ut for": "except",
    r"[Tt]urns? on|[Tt]urned on": "depends on",
    r"[Bb]y chance": "random, at random",
    r"[Ll]ooks? whether": "checks whether",
    r"[Ww]ho (?:wants|asks|looks|makes|changes|reads)": "whoever, or: to do this",
    r"[Ss]tands?(?! (?:for|still)\b|-in)|[Ss]tood(?! (?:for|still)\b)": "is, was",
    r"[Ww]ants|[Ww]anted": "requires, asks for",
}
# The macros of the manual page that hold words of a sentence, and those that end one.
INLINE = re.compile(r"\.(?:B|I|BR|RB|BI|IB|IR|RI) ")


def blocks_of_markdown(text):
    """The paragraphs, list items and cells of a document, without code."""
    block, code = [], False
    for line in [*text.splitlines(), ""]:
        if line.startswith("```"):
            code = not code
        if code or line.startswith(("    ", "```", "![")):
            continue
        if not line.strip() or re.match(r"[-|#]|\d+\. ", line):
            yield " ".join(block)
            block = []
        if line.startswith("|"):
            yield from re.split(r"(?<!\\)\|", line.strip("|"))
        elif line.strip():
            block.append(re.sub(r"^(?:[-#]+|\d+\.) ", "", line.strip()))


def blocks_of_page(text):
    """The same of the manual page."""
    block, code, before = [], False, ""
    for line in [*text.splitlines(), ".PP"]:
        code = line == ".nf" or code and line != ".fi"
        words = INLINE.sub("", line).replace("\\(aq", "'").replace("\\-", "-")
        if line.startswith(".\\"):
            continue
        # (the line behind .TP is a head of its own)
        if line.startswith(".") and not INLINE.match(line) or before == ".TP":
            yield " ".join(block)
            block = []
        elif not code:
            block.append(re.sub(r"\\f[BIR]|\\\(..|\"", "", words))
        before = line


def faults_of(file):
    """The long sentences and the words to avoid of a document: what to look up in the exceptions, and a line that says so."""
    text = file.read_text()
    for block in blocks_of_page(text) if file.suffix == ".1" else blocks_of_markdown(text):
        for sentence in re.split(r"(?<=[.!?])\s+(?=[\"`(*'\[]*[A-Z0-9`])", " ".join(block.split())):
            if len(sentence.split()) > MOST:
                yield sentence, f"{len(sentence.split())} words where {MOST} is the most: {sentence}"
        plain = re.sub(r"`[^`]*`", "`..`", " ".join(block.split()))
        for words, instead in AVOIDED.items():
            for at in re.finditer(rf"\b(?:{words})\b", plain):
                around = plain[max(0, at.start() - 30) : at.end() + 30]
                yield around, f"`{at[0]}`, where one writes '{instead}': .. {around} .."


def hard_english(files):
    """The faults of documents that no exception covers, and the exceptions that nothing needs, as lines that say so."""
    listed = EXCEPTIONS.read_text().splitlines() if EXCEPTIONS.exists() else []
    needed = [it for it in listed if it.strip() and not it.startswith("#")]
    wrong, used = [], set()
    for file in files:
        for found, said in faults_of(file):
            covers = [it for it in needed if it in found]
            used |= set(covers)
            wrong += [] if covers else [f"{file.relative_to(ROOT)}: {said}"]
    return wrong + [f"tests/docs/exceptions: nothing needs the line `{it}`" for it in needed if it not in used]
