#!/usr/bin/env python3
"""Counts the built program's instructions, crate by crate, so that one sees where a command's time goes and what changed.

Run by hand: bench/profile.py [WORD]. The first line has the kind of machine, its processors, its load and the day. Then comes a
table for each sheet and command whose name contains WORD (all by default), under the number of instructions in all: the share of each crate that has at least one in a hundred, with those of its functions that have most.
`memory` is the C library's part, mostly allocation. Code that the compiler put into its caller counts as the caller's.

It needs valgrind, which counts the same for the same program, input and number of processors, whatever else the machine does. How
the program is found is that of bench/measuring.py.
"""

import argparse
import collections
import pathlib
import re
import shutil
import subprocess
import sys
import tempfile

from graph import at_random, books
from measuring import PROGRAM, build, lines, machine

# What is counted: the sheet's text, the script's, and the words.
COUNTED = {
    "show: 40,000 cells, half of them =Ar*2": (lambda: lines(20_000, lambda r: f"{r},=A{r}*2"), "", "show sheet.csv A1:B20000"),
    "show: 2,000 growing sums": (lambda: lines(2_000, lambda r: f"{r},=SUM($A$1:A{r})"), "", "show sheet.csv A1:B2000"),
    "check: a ledger of 10,000 rows": (lambda: lines(10_000, books), "", "check sheet.csv"),
    "check: 20,000 formulas with references drawn at random": (lambda: lines(20_000, at_random), "", "check sheet.csv"),
    "play: 10,000 edits beside 10,000 formulas": (
        lambda: lines(10_000, lambda r: f"{r},=A{r}*2"), lines(10_000, lambda r: f"set A{r} 7"), "play sheet.csv script.txt"),
}

# A line of what callgrind_annotate prints: instructions, file and function, and the object it stands in.
LINE = re.compile(r"\s*([\d,]+) \([ \d.]+%\)\s+[^:]*:(.*?)(?: \[([^\]]*)\])?$")


def counted(folder, words):
    """The instructions of each function of a run that has to end with 0."""
    ran = subprocess.run(
        ["valgrind", "--tool=callgrind", "--callgrind-out-file=counts", PROGRAM, *words.split()],
        cwd=folder, stdout=subprocess.DEVNULL, stderr=subprocess.PIPE, text=True)
    if ran.returncode:
        sys.exit(f"bench/profile.py: {words} ended with status {ran.returncode}: {ran.stderr[-400:]}")
    said = subprocess.run(["callgrind_annotate", "--threshold=100", "counts"], cwd=folder, stdout=subprocess.PIPE, text=True, check=True).stdout
    counts = collections.Counter()
    for line in said.splitlines():
        found = LINE.match(line)
        if found and found[2] != "PROGRAM TOTALS":
            of_program = not found[3] or found[3].endswith(f"/{PROGRAM.name}")
            counts[found[2].split("'")[0] if of_program else "memory::" + found[2]] += int(found[1].replace(",", ""))
    return counts


def crate_of(function):
    """The crate of a function, by the first part of its path."""
    return function.partition("::")[0] if "::" in function else "memory"


def tell(what, counts):
    """Prints the table of a run."""
    whole = sum(counts.values())
    print(f"{what}: {whole:,} instructions")
    crates = collections.Counter()
    for function, count in counts.items():
        crates[crate_of(function)] += count
    for crate, count in crates.most_common():
        if count * 100 < whole:
            break
        most = [(f, n) for f, n in counts.most_common() if crate_of(f) == crate and n * 100 >= whole][:4]
        named = ", ".join(f"{re.sub(r'::<#.*', '', f).removeprefix(crate + '::')} {n / whole:.1%}" for f, n in most)
        print(f"{count / whole:7.1%}  {crate}{': ' if named else ''}{named}")


def main():
    parser = argparse.ArgumentParser(description=__doc__, formatter_class=argparse.RawDescriptionHelpFormatter)
    parser.add_argument("word", nargs="?", default="", metavar="WORD", help="what has this in its name alone (all)")
    word = parser.parse_args().word
    if not shutil.which("valgrind"):
        sys.exit("bench/profile.py: valgrind isn't installed")
    build()
    print(machine())
    for what, (sheet, script, words) in COUNTED.items():
        if word not in what:
            continue
        with tempfile.TemporaryDirectory(prefix="antifreeze-bench-") as folder:
            folder = pathlib.Path(folder)
            (folder / "sheet.csv").write_text(sheet())
            (folder / "script.txt").write_text(script)
            tell(what, counted(folder, words))


if __name__ == "__main__":
    main()
