#!/usr/bin/env python3
"""Times the built program on large sheets, each beside Python's csv module, which reads the same text into lists.

Run by hand: bench/show.py [--program FILE] [RUNS] [WORD]. A line for each sheet whose name contains WORD (all by default), with the least of
RUNS runs each (3 by default), program and csv in turn:

    program   seconds of processor time of the whole run of the program, its output sent to a file
    csv       seconds of processor time in which csv.reader makes its lists of the file, in a process of its own
    ratio     the one divided by the other
    B/cell    the most memory that the program had resident, divided by the cells of the sheet

Behind the name of a sheet whose formulas look at very many cells stands the program's time divided by that number.

A last line, for a label of 8,192 bytes that is shown 100,001 times, has beside the program's time that in which as many bytes are
written to the same file in pieces of 65,536, and the most memory that the program had resident, in MB.
"""

import pathlib
import sys
import tempfile

from measuring import LETTERS, build, called_with, grid, head, ledger, lines, name, one_hash, started, sums, told

READER = """
import csv, json, time
start = time.process_time()
with open("sheet.csv", newline="") as file:
    rows = list(csv.reader(file))
print(json.dumps([time.process_time() - start, len(rows) * max(map(len, rows))]))
"""


WRITER = """
import json, os, sys, time
left, piece = int(sys.argv[1]), bytes(65536)
start = time.process_time()
file = os.open("output", os.O_WRONLY | os.O_CREAT | os.O_TRUNC, 0o644)
while left:
    left -= os.write(file, piece[:left])
print(json.dumps([time.process_time() - start]))
"""

LABEL = "a label of 8,192 bytes, shown 100,001 times"


# What is measured: the sheet's text, the words behind `show sheet.csv`, and how many cells the formulas look at where that is told.
MEASURED = {
    "start: a sheet of one cell": (lambda: "1\n", "show A1", 0),
    "a cell of 1,048,576, half of them =Ar*2": (lambda: lines(524_288, lambda r: f"{r},=A{r}*2"), "show B524288", 0),
    "all of 1,048,576 cells, half of them =Ar*2": (lambda: lines(524_288, lambda r: f"{r},=A{r}*2"), "show A1:B524288", 0),
    "the last cell of a chain of 100,000": (lambda: lines(100_000, lambda r: f"=A{r - 1}+1" if r > 1 else "1"), "show A100000", 0),
    "5,000 sums =SUM($A$1:Ar)": (lambda: lines(5_000, lambda r: f"{r},=SUM($A$1:A{r})"), "show B1:B5000", 12_502_500),
    "5,000 counts =COUNTIF($A$1:Ar;Br)": (
        lambda: "#edition 2\n" + lines(5_000, lambda r: f"{r % 10},{r % 7},=COUNTIF($A$1:A{r};B{r})"), "show C1:C5000", 12_502_500),
    "5,000 sums =SUMIF($A$1:Ar;Br)": (
        lambda: "#edition 2\n" + lines(5_000, lambda r: f"{r % 10},{r % 7},=SUMIF($A$1:A{r};B{r})"), "show C1:C5000", 12_502_500),
    "100,000 sums of windows of ten cells": (lambda: lines(100_000, lambda r: f"{r},=SUM(A{r}:A{r + 9})"), "show B1:B100000", 1_000_000),
    "100,000 formulas =$A$1*2": (lambda: lines(100_000, lambda r: f"{r},=$A$1*2"), "show B1:B100000", 0),
    "a ledger of 50,000 rows and six columns": (lambda: lines(50_000, ledger), "show A1:F50000", 0),
    "65,536 cells, each the sum of two heads": (lambda: grid(sums), "show A1:BL1024", 0),
    "64 chains of 1,024 cells": (lambda: grid(lambda row, col: f"={name(row - 1, col)}+1" if row > 1 else "1"), "show A1:BL1024", 0),
    "a chain of 60,000, each naming the next": (lambda: lines(60_000, lambda r: f"=A{r + 1}+1" if r < 60_000 else "1"), "show A1", 0),
    "a cycle of 60,000 cells": (lambda: lines(60_000, lambda r: f"=A{r % 60_000 + 1}+1"), "show A1", 0),
    "65,536 cells with 60 references each": (
        lambda: grid(lambda row, col: "=" + "+".join(f"{LETTERS[it % 26]}1" for it in range(60)) if row > 1 else "1"),
        "show A1:BL1024",
        3_928_320,
    ),
    "500,000 labels, all different": (lambda: lines(500_000, lambda r: f"label {r}"), "show A500000", 0),
    "500,000 labels, 1,000 different ones": (lambda: lines(500_000, lambda r: f"label {r % 1_000}"), "show A500000", 0),
    "500,000 labels, 100,000 different ones": (lambda: lines(500_000, lambda r: f"label {r * 7919 % 100_000}"), "show A500000", 0),
    "40,000 labels of one hash": (lambda: "\n".join(one_hash(40_000)), "show A40000", 0),
    "160,000 labels of one hash": (lambda: "\n".join(one_hash(160_000)), "show A160000", 0),
    "deps: a chain of 10,000": (lambda: lines(10_000, lambda r: f"=A{r - 1}+1" if r > 1 else "1"), "deps A1", 0),
    "precs: a sum over all names": (lambda: "1,=SUM(A1:XFD1048576)\n", "precs B1", 0),
}


def measure(folder, words, runs):
    """The least times of program and csv, and the least peak of the program's memory, in as many runs, in turn."""
    command, window = words.split()
    times, reads, peaks = [], [], []
    for _ in range(runs):
        taken, _, peak = started(folder, command, "sheet.csv", window)
        read, cells = told(READER, folder)
        times.append(taken)
        peaks.append(peak)
        reads.append(read)
    return min(times), min(reads), min(peaks), cells


def measure_label(folder, runs):
    """The least times of the program and of writing as many bytes, and the program's least peak of memory, in as many runs."""
    (folder / "sheet.csv").write_text("x" * 8_192 + "\n=A$1" * 100_000)
    times, writes, peaks = [], [], []
    for _ in range(runs):
        taken, _, peak = started(folder, "show", "sheet.csv", "A1:A100001")
        times.append(taken)
        peaks.append(peak)
        writes += told(WRITER, folder, str((folder / "output").stat().st_size))
    return min(times), min(writes), min(peaks)


def main():
    runs, word = called_with(__doc__, 3)
    build()
    head(runs)
    print(f"{'program':>8} {'csv':>8} {'ratio':>7} {'B/cell':>8}")
    with tempfile.TemporaryDirectory(prefix="antifreeze-bench-") as folder:
        folder = pathlib.Path(folder)
        for what, (text, words, looks) in MEASURED.items():
            if word not in what:
                continue
            (folder / "sheet.csv").write_text(text())
            program, read, peak, cells = measure(folder, words, runs)
            each = f", {program / looks * 1e9:.1f} ns for each of {looks:,} looks" if looks else ""
            print(f"{program:8.3f} {read:8.3f} {program / read:7.2f} {peak / cells:8.0f}  {what}{each}", flush=True)
        if word in LABEL:
            program, write, peak = measure_label(folder, runs)
            print(f"{'program':>8} {'write':>8} {'ratio':>7} {'MB':>8}")
            print(f"{program:8.3f} {write:8.3f} {program / write:7.2f} {peak / 1e6:8.1f}  {LABEL}", flush=True)


if __name__ == "__main__":
    main()
