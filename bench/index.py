#!/usr/bin/env python3
"""Times the three indexes of ranges over ranges of several shapes, by a program of its own that stands in bench/index as text.

Run by hand: bench/index.py [RUNS] [WORD]. The program is put together with the crates below it in a folder of its own, proved
and built there by the kit's `rt`; the folder is kept for the next call. Where the headers of mdds are installed (Debian's
libmdds-dev), its R-tree is timed beside them. A line for each index and each shape whose name contains WORD (all by default),
with the least of RUNS runs each (3 by default), the indexes in turn, in microseconds of processor time:

    insert    for each range, all into an empty index for which room is made at once
    query     for each query of one cell, the head of a drawn range
    answers   how many ids such a query gets
    removal   for each range, in the order in which they came

Below them stand the queries of a tree that was filled with as many ranges elsewhere and emptied by nine tenths before these
came, beside those of a fresh one, for the shapes that can lie elsewhere; and the memory of each index that makes room for the
inserts of one change and for those of a largest batch.

Of a list, which looks at all its ranges, and of mdds fewer queries and removals are timed.
"""

import pathlib
import subprocess
import sys
import tempfile

import proved
from measuring import ROOT, STARTER, called_with, head, told

SOURCES = ROOT / "bench" / "index"
LIBRARIES = ["sheet_refs", "range_index", "tree_index", "slab", "arrayvec"]
PEER = pathlib.Path(tempfile.gettempdir()) / "antifreeze-mdds_bench"

# The shapes: the program's name of each, how many ranges, how many queries, and how many of the list and of mdds.
SHAPES = {
    "1,000,000 single cells of one column": ("cells", 1_000_000, 1_000_000, 200),
    "100,000 of up to 4 cells of one column, in 10 columns": ("small", 100_000, 100_000, 2_000),
    "100,000 single cells of one column": ("cells", 100_000, 100_000, 2_000),
    "100,000 of 9 to 30 cells of one column": ("windows", 100_000, 100_000, 2_000),
    "20,000 prefixes of A": ("prefixes", 20_000, 1_000, 1_000),
    "100,000 rectangles of up to 100 by 100 cells": ("rectangles", 100_000, 100_000, 2_000),
    "10,000 rows and 10,000 columns that cross": ("crossing", 20_000, 1_000, 1_000),
    "20,000 equal ranges": ("equal", 20_000, 1_000, 1_000),
}


# The shapes whose ranges can lie elsewhere.
REFILLED = [what for what, (line, count, _, _) in SHAPES.items() if line in ("cells", "small", "windows", "rectangles") and count == 100_000]


def build():
    """The program, proved and built, and whether the peer's could be, whose headers are wanted."""
    program = proved.program("index_bench", SOURCES, LIBRARIES, ["tree", "cells", "10", "1", "10"])
    headers = sorted(pathlib.Path("/usr/include").glob("mdds-*"))
    peer = ["c++", "-std=c++17", "-O2", *(f"-I{folder}" for folder in headers), "-o", PEER, SOURCES / "mdds.cpp"]
    return program, bool(headers) and not subprocess.run(peer, stderr=subprocess.DEVNULL).returncode


def timed(program, index, line, count, queries, removals, *more):
    """The times of one run, each for one of what was done, and how many ids a query got."""
    words = [PEER] if index == "mdds" else [program, index]
    ran = subprocess.run([*words, line, str(count), str(queries), str(removals), *more], stdout=subprocess.PIPE, text=True)
    if ran.returncode:
        sys.exit(f"bench/index.py: {index} ended with status {ran.returncode} over {line}")
    inserts, asked, removed, answers = map(int, ran.stdout.split())
    return inserts / count / 1e3, asked / queries / 1e3, removed / removals / 1e3, answers / queries


def measure(program, index, line, count, queries, few, runs):
    """The least times of so many runs."""
    if index in ("list", "mdds"):
        taken = [timed(program, index, line, count, few, few) for _ in range(runs)]
    else:
        taken = [timed(program, index, line, count, queries, count) for _ in range(runs)]
    return [min(column) for column in zip(*taken)]


def refill(program, what, runs):
    """Prints the time of a query of a fresh tree, of one that was filled elsewhere before, and the second by the first."""
    line, count, queries, _ = SHAPES[what]
    fresh, again = (min(timed(program, "tree", line, count, queries, 1, *more)[1] for _ in range(runs)) for more in ([], ["refilled"]))
    print(f"{fresh:8.2f} {again:9.2f} {again / fresh:6.2f}  {what}", flush=True)


def room(program, index):
    """Prints the most memory that was resident where an index made room for no insert, for one change's, and for 1,024 changes'."""
    with tempfile.TemporaryDirectory() as folder:
        peaks = [told(STARTER, folder, program, index, "room", str(count), "0", "0")[3] for count in (0, 765, 1_024 * 765)]
    none, one, most = (it / 1e6 for it in peaks)
    print(f"{index:>5} {one - none:10.2f} {most - none:10.2f}", flush=True)


def main():
    runs, word = called_with(__doc__, 3, of_program=False)
    program, has_peer = build()
    indexes = ["list", "grid", "tree"] + ["mdds"] * has_peer
    head(runs)
    print(f"{'':>5} {'insert':>8} {'query':>9} {'answers':>9} {'removal':>8}")
    for what, (line, count, queries, few) in SHAPES.items():
        if word not in what:
            continue
        for index in indexes:
            inserted, asked, removed, answers = measure(program, index, line, count, queries, few, runs)
            print(f"{index:>5} {inserted:8.2f} {asked:9.2f} {answers:9.1f} {removed:8.2f}  {what}", flush=True)
    print(f"\n{'fresh':>8} {'refilled':>9} {'ratio':>6}")
    for what in REFILLED:
        if word in what:
            refill(program, what, runs)
    print(f"\n{'':>5} {'change, MB':>10} {'batch, MB':>10}  room for inserts")
    for index in ("list", "grid", "tree"):
        room(program, index)


if __name__ == "__main__":
    main()
