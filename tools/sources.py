"""Reads the definitions of specs/ and the public functions of src/: what tools/statement and tools/guarantees have in common.

It reads by the shape of the text and not by a grammar: it relies on `rt fmt`, which gives each clause a line of its own, and on
definitions that begin at the left margin, or two columns in within a `mutual` block.
"""

import collections
import functools
import pathlib
import re

ROOT = pathlib.Path(__file__).resolve().parent.parent
CRATES = ROOT / "crates"

# The words before the name of a definition.
BEFORE = r"(?:(?:abbrev|unfoldable|pub) )*"
# The first line of a definition: a type with its kind, or a name with its signature.
HEAD = re.compile(rf"{BEFORE}(?:(data|record) ([^\s({{:]+)|([^\s({{:]+) :(?:\s|$))")
# What a name of a definition's text is made of; operators are names too.
WORD = re.compile(r"[^\s(){}\[\],;]+")
# Comments, texts and characters of a source, in which no brace counts.
MASKED = re.compile(r'//[^\n]*|"(?:\\.|[^"\\])*"|b?\'(?:\\[^\']+|[^\'\\\n])\'', re.S)
# A function's head, and the words that a clause begins with.
FUNCTION = re.compile(r"(?m)^[ \t]*(pub(?:\([a-z]+\))? )?(?:const |unsafe )*fn (\w+)")
CLAUSE = re.compile(r"(?m)^[ \t]*(requires|ensures|ghost)(\*?)(?: (\w+):?)? \{")

Definition = collections.namedtuple("Definition", "crate file name line lines comment text given")
Clause = collections.namedtuple("Clause", "kind name line text comment")
Function = collections.namedtuple("Function", "crate file name owner of_trait public line comment head clauses span body")
Type = collections.namedtuple("Type", "crate file name kind line lines comment text model members fields")


def crate_names():
    """The crates of crates.txt, lowest layer first."""
    lines = (ROOT / "crates.txt").read_text().splitlines()
    return [line.partition(":")[0] for line in lines if re.match("[a-z]", line)]


def first_sentence(text):
    """The first sentence of a comment."""
    return re.split(r"(?<=[.!?])\s+(?=[A-Z`\[])", " ".join(text.split()), maxsplit=1)[0]


def code_lines(text, comment):
    """How many lines of a text are neither blank nor comments."""
    return sum(1 for line in text.splitlines() if line.strip() and not line.strip().startswith(comment))


# Definitions


def import_of(line):
    """What a `use` line brings: for each name in the file the path that it means."""
    path, _, names = line.rstrip("; \n").partition(".{")
    if not names:
        path, _, alias = path.partition(" as ")
        return {alias or path.rpartition(".")[2]: path}
    found = {}
    for name in names.rstrip("}").split(","):
        of, _, alias = name.strip().partition(" as ")
        found[(alias or of).strip()] = f"{path}.{of.strip()}"
    return found


def definition_of(crate, file, name, begin, lines, comment, given):
    """A definition of the lines from `begin` on, in a module with what is given to all that is in it."""
    while lines and not lines[-1].strip():
        lines.pop()
    text = "\n".join(lines)
    return Definition(crate, file, name, begin, code_lines(text, "--"), comment, text, given)


@functools.cache
def spec(path):
    """The imports and the definitions of a file of specs/."""
    crate, file = path.parent.parent.name, path.stem
    imports, found, open_, comment, inner, given = {}, {}, None, [], 0, ""

    def close(end):
        if open_:
            name, begin, about, within = open_
            found[name] = definition_of(crate, file, name, begin + 1, text[begin:end], " ".join(about), within)

    text = path.read_text().splitlines()
    for at, line in enumerate(text):
        bare = line.strip()
        margin = len(line) - len(line.lstrip())
        if margin > inner and bare:
            continue
        if bare.startswith("--"):
            comment.append(bare.lstrip("- "))
        elif re.match(r"(pub )?use ", line):
            imports |= import_of(line.partition("use ")[2])
        elif re.match(rf"{BEFORE}mutual$|module _ .*where$", bare):
            close(at)
            open_, inner, given = None, 2, bare if bare.startswith("module") else ""
        elif head := HEAD.match(bare):
            inner = margin
            close(at - len(comment))
            open_ = head[2] or head[3], at, comment, given if margin else ""
        if not bare.startswith("--") and not bare.endswith("mutual"):
            comment = []
    close(len(text))
    return imports, found


# Sources


def masked(text):
    """The text with spaces for its comments, texts and characters."""
    return MASKED.sub(lambda it: re.sub(r"[^\n]", " ", it[0]), text)


@functools.cache
def bare_text(path):
    """The same of a file."""
    return masked(path.read_text())


def closing(text, begin):
    """The place behind the brace that closes the one at `begin`."""
    depth = 0
    for at in range(begin, len(text)):
        depth += {"{": 1, "}": -1}.get(text[at], 0)
        if not depth:
            return at + 1
    return len(text)


def line_at(text, place):
    """The number of the line of a place."""
    return text.count("\n", 0, place) + 1


def comment_above(lines, number, mark="///"):
    """The comment of such a mark directly above a line, past attributes."""
    found, at = [], number - 2
    while at >= 0 and (lines[at].strip().startswith((mark, "#["))):
        if lines[at].strip().startswith(mark):
            found.append(lines[at].strip().removeprefix(mark).strip())
        at -= 1
    return " ".join(reversed(found))


def blocks(bare):
    """The `impl` and `trait` blocks of a source: where each begins and ends, its trait and its type."""
    found = []
    for at in re.finditer(r"(?m)^(?:pub(?:\([a-z]+\))? )?(?:unsafe )?(impl|trait)\b", bare):
        begin = bare.index("{", at.end())
        head = re.sub(r"<[^<>]*>", "", re.sub(r"<[^<>]*(?:<[^<>]*>[^<>]*)*>", "", bare[at.end() : begin]))
        head = re.split(r"\bwhere\b", head)[0]
        of_trait, _, name = head.rpartition(" for ")
        name = re.split(r"[\s:]", name.strip().removeprefix("&").removeprefix("mut ").strip())[0]
        trait = name if at[1] == "trait" else of_trait.strip().rpartition("::")[2]
        found.append((at.start(), closing(bare, begin), trait, name, at[1] == "trait"))
    return found


def clauses_of(text, bare, begin):
    """The clauses behind a function's head, and where its body or its semicolon is."""
    found, at, lines = [], begin, text.splitlines()
    while True:
        end = re.compile(r"[{;]").search(bare, at)
        clause = CLAUSE.search(bare, at)
        if not end or not clause or clause.end() - 1 > end.start():
            return found, end.start() if end else len(bare)
        at = closing(bare, clause.end() - 1)
        number = line_at(text, clause.start(1))
        body = " ".join(text[clause.end() : at - 1].split())
        found.append(Clause(clause[1], clause[3] or "", number, body, comment_above(lines, number, "//")))


def signature_end(bare, begin):
    """The place behind a function's parameters and result, where its clauses or its body begin."""
    depth = 0
    for at in range(bare.index("(", begin), len(bare)):
        depth += {"(": 1, ")": -1, "[": 1, "]": -1}.get(bare[at], 0)
        if not depth and (bare[at] in "{;" or re.compile(r"\n\s*(requires|ensures|ghost|where)\b").match(bare, at)):
            return at
    return len(bare)


@functools.cache
def source(path):
    """The imports of clauses, the imports of code, the functions and the types of a file of src/."""
    text = path.read_text()
    bare, lines, crate = bare_text(path), text.splitlines(), path.relative_to(CRATES).parts[0]
    ghosts, uses = {}, {}
    for at in re.finditer(r"(?m)^\s*(pub )?(ghost )?use ([^;]*);", bare):
        if at[2]:
            ghosts |= import_of(" ".join(at[3].split()))
        else:
            uses |= import_of(" ".join(at[3].replace("::", ".").split()))
    within, functions = blocks(bare), []
    for at in FUNCTION.finditer(bare):
        block = next((it for it in within if it[0] <= at.start() < it[1]), None)
        # (a function within another one's body is no item)
        if any(it.body[0] < at.start() < it.body[1] for it in functions):
            continue
        number, behind = line_at(text, at.start(2)), signature_end(bare, at.end())
        clauses, body = clauses_of(text, bare, behind)
        end = closing(bare, body) if bare[body : body + 1] == "{" else body + 1
        owner, trait, declares = (block[3], block[2], block[4]) if block else ("", "", False)
        head, about, span = text[at.start() : behind], comment_above(lines, number), (at.start(), end)
        said = (at[1] or "").strip() if not declares else "trait"
        functions.append(Function(crate, path, at[2], owner, trait, said, number, about, head, clauses, span, (body, end)))
    return ghosts, uses, functions, types_of(crate, path, text, bare, within)


def types_of(crate, path, text, bare, within):
    """The types, traits and constants of a source."""
    found, lines = {}, text.splitlines()
    for at in re.finditer(r"(?m)^(?:pub(?:\([a-z]+\))? )?(struct|enum|trait|type|const) (\w+)", bare):
        end = re.compile(r"[{;]").search(bare, at.end()).start()
        end = closing(bare, end) if bare[end] == "{" else end + 1
        impls = [(trait, text[b:e]) for b, e, trait, name, declares in within if name == at[2] and trait and not declares]
        models = [said for trait, said in impls if trait == "Model"]
        members = "".join(said for trait, said in impls if trait != "Model" and re.search(r"(?m)^\s*ghost \w+ = ", said))
        said = text[at.start() : end]
        fields = dict(re.findall(r"(?m)^\s*(?:pub(?:\([a-z]+\))? )?(\w+): ([^{\n]*),$", said)) if at[1] == "struct" else {}
        number = line_at(text, at.start(1))
        counted = code_lines(said, "//") + sum(code_lines(it, "//") for it in models)
        about = comment_above(lines, number)
        found[at[2]] = Type(crate, path, at[2], at[1], number, counted, about, said, "\n".join(models), members, fields)
    return found


def source_files(crate):
    """The files of a crate's src/."""
    return sorted((CRATES / crate / "src").rglob("*.rt"))


@functools.cache
def public_names(crate):
    """The names that lib.rt hands on; a program hands on none."""
    root, names = CRATES / crate / "src" / "lib.rt", {}
    text = masked(root.read_text()) if root.exists() else ""
    for at in re.finditer(r"(?m)^pub use ([^;]*);", text):
        names |= import_of(" ".join(at[1].replace("::", ".").split()))
    return names


def is_law(function):
    """Whether a function is a law: it has no result and an empty body, and says something of definitions alone."""
    text = function.file.read_text()[slice(*function.body)]
    return not re.sub(r"[{}\s]|//[^\n]*", "", text) and "->" not in function.head


@functools.cache
def traits():
    """The names of this repository's traits."""
    return {it.name for crate in crate_names() for file in source_files(crate) for it in source(file)[3].values() if it.kind == "trait"}


def public_functions(crate):
    """The functions that a crate hands on: those that lib.rt names, those of the types that it names, and what its types do of a
    trait of this repository, or of another one by clauses of their own."""
    names, found = public_names(crate), []
    for file in source_files(crate):
        for it in source(file)[2]:
            if it.owner:
                met = it.of_trait and (it.clauses or it.of_trait in traits())
                shown = it.owner in names and (it.public in ("pub", "trait") or met)
            else:
                shown = it.public == "pub" and (it.name in names or file.name == "lib.rt")
            found += [it] if shown and it.of_trait != "Model" else []
    return found
