"""Puts a program of bench/ together with the crates below it in a folder of its own, and proves and builds it there.

The folder is kept for the next call, so that only what has changed is proved again.
"""

import pathlib
import shutil
import subprocess
import sys
import tempfile

from measuring import ROOT


def below():
    """For each crate of the repository, the libraries on its line."""
    lines = [line.partition("#")[0] for line in (ROOT / "crates.txt").read_text().splitlines()]
    return {name.strip(): uses.split() for name, colon, uses in (line.partition(":") for line in lines) if colon}


def needed(libraries):
    """The crates of the repository under these libraries, and they themselves, lowest first."""
    known, found = below(), set()
    left = list(libraries)
    while left:
        name = left.pop()
        if name in known and name not in found:
            found.add(name)
            left += known[name]
    return [name for name in known if name in found]


def put(file, text):
    """Writes a file, unless it has the text already."""
    file.parent.mkdir(parents=True, exist_ok=True)
    if not file.exists() or file.read_text() != text:
        file.write_text(text)


def prepare(folder, name, sources, libraries):
    """Puts the program and the crates below it into the folder."""
    known = below()
    for crate in needed(libraries):
        for part in ("src", "specs", "proofs"):
            shutil.rmtree(folder / "crates" / crate / part, ignore_errors=True)
            shutil.copytree(ROOT / "crates" / crate / part, folder / "crates" / crate / part)
    for file in sources.rglob("*.txt"):
        put(folder / "crates" / name / file.relative_to(sources).with_suffix(""), file.read_text())
    lines = [f"{crate}: {' '.join(known[crate])}" for crate in needed(libraries)]
    put(folder / "crates.txt", "\n".join([*lines, f"{name}: {' '.join(libraries)}"]) + "\n")
    put(folder / "HANDLES", (ROOT / "HANDLES").read_text())


def program(name, sources, libraries, words):
    """The program of these sources, whose files end in .txt, proved and built. It is run once with these words."""
    folder = pathlib.Path(tempfile.gettempdir()) / f"antifreeze-{name}"
    prepare(folder, name, sources, libraries)
    crate = folder / "crates" / name
    ran = subprocess.run(["rt", "run", "--", *words], cwd=crate, stdin=subprocess.DEVNULL, stdout=subprocess.PIPE, stderr=subprocess.STDOUT, text=True)
    if ran.returncode:
        sys.exit(f"bench: {name} could not be built\n{ran.stdout[-3000:]}")
    return crate / "out" / name
