#!/usr/bin/env python3
"""Times `live` of the built program with several workers beside one, and over sheets of four times the cells, by the clock: an edit
or two over sheets on which workers would stand in each other's way, or in that of the client.

Run by hand: bench/responsive.py [--program FILE] [RUNS] [WORD]. For each sheet whose name contains WORD (all by default), with the least of RUNS
runs each (3 by default), a run that takes longer than a minute given up:

    workers     a line with the seconds by the clock with 1, 2, 4 and 8 workers, what the most is of the first, and the voluntary
                context switches with 4
    growth      a line with the seconds with 4 workers over the sheet and over one of four times the cells, and their ratio
    show        the seconds of `show` of all cells, for comparison

Differences below 20 ms say nothing. The machine should do nothing else. How the program is started is that of bench/measuring.py.
"""

import os
import pathlib
import random
import resource
import subprocess
import tempfile
import time

import measuring
from measuring import build, called_with, head, lines, name

LIMIT = 60


def chains(size):
    """So many columns of chains, as many rows deep, that all begin at A1."""
    def line(row):
        return ",".join(("1" if col == 1 else "=$A$1+1") if row == 1 else f"={name(row - 1, col)}+1" for col in range(1, size + 1))
    return lines(size, line), "set A1 5\nfirm A1:A1\n"


def two(rows):
    """A recurrence through two columns."""
    return lines(rows, lambda r: f"=B{r - 1}+1,=A{r}+1" if r > 1 else "1,=A1+1"), f"set A1 5\nfirm B{rows}\n"


def drawn(cells):
    """A chain through the cells of one column in an order that is drawn."""
    order = random.Random(1).sample(range(1, cells + 1), cells)
    above = dict(zip(order[1:], order))
    return lines(cells, lambda r: f"=A{above[r]}+1" if r in above else "1"), f"set A{order[0]} 5\nfirm A{order[0]}\n"


def booking(row):
    """What is planned and spent, what is left, the sum of that so far, and whether less is spent."""
    return f"item {row},{row % 900},{row % 700},=B{row}-C{row},{f'=E{row - 1}+' if row > 1 else '='}D{row},=IF(C{row}>B{row};1;0)"


def ledger(rows):
    """A ledger with a row of totals."""
    total = ",".join(["total"] + [f"=SUM({c}1:{c}{rows})" for c in "BCDEF"])
    return f"{lines(rows, booking)}{total}\n", "set B2 5\nfirm A1:B1\n"


def across(cols):
    """The ledger laid out across: a column for each booking."""
    def line(row):
        def cell(col):
            here = lambda r: name(r, col)
            return (f"item {col}", str(col % 900), str(col % 700), f"={here(2)}-{here(3)}",
                    f"{f'={name(5, col - 1)}+' if col > 1 else '='}{here(4)}", f"=IF({here(3)}>{here(2)};1;0)")[row - 1]
        return ",".join(cell(col) for col in range(1, cols + 1))
    return lines(6, line), "set B2 5\nfirm A1:B1\n"


def fan(cells):
    """One cell on which all others depend."""
    return lines(cells // 4, lambda r: ",".join("1" if r == col == 1 else "=$A$1+1" for col in range(1, 5))), "set A1 5\nfirm A2\n"


def from_the_right(cells):
    """A chain from right to left in each row, under a row of counts."""
    cols = 64
    counts = ",".join(f"=COUNT({name(2, c)}:{name(cells // cols + 1, c)})" for c in range(1, cols + 1))
    body = lines(cells // cols, lambda r: ",".join(f"={name(r + 1, c + 1)}+1" if c < cols else str(r) for c in range(1, cols + 1)))
    return f"{counts}\n{body}", f"set {name(2, cols)} 5\nfirm A1:A1\n"


SHEETS = {
    "700 columns of chains, 700 rows deep": lambda: chains(700),
    "a recurrence through two columns, 5,000 rows": lambda: two(5_000),
    "a chain through 1,600 cells in drawn order": lambda: drawn(1_600),
    "a ledger of 50,000 rows": lambda: ledger(50_000),
    "a ledger across 4,000 columns": lambda: across(4_000),
    "a fan of 400,000 cells": lambda: fan(400_000),
}

GROWING = {
    "a chain through 800 cells in drawn order": (drawn, 800),
    "a recurrence through two columns, 2,000 rows": (two, 2_000),
    "a ledger across 1,000 columns": (across, 1_000),
    "chains from the right under a row of counts, 16,384 cells": (from_the_right, 16_384),
}


def run(folder, *words):
    """The seconds and the voluntary context switches of one run; endless where it took longer than the limit."""
    before = resource.getrusage(resource.RUSAGE_CHILDREN).ru_nvcsw
    start = time.monotonic()
    with open(os.devnull, "wb") as nowhere:
        try:
            subprocess.run([measuring.PROGRAM, *words], cwd=folder, stdout=nowhere, check=True, timeout=LIMIT)
        except subprocess.TimeoutExpired:
            return float("inf"), 0
    return time.monotonic() - start, resource.getrusage(resource.RUSAGE_CHILDREN).ru_nvcsw - before


def least(runs, folder, *words):
    """The least of so many runs; one that was given up isn't made again."""
    best = run(folder, *words)
    for _ in range(runs - 1):
        if best[0] != float("inf"):
            best = min(best, run(folder, *words))
    return best


def write(folder, made):
    sheet, script = made
    (folder / "sheet.csv").write_text(sheet)
    (folder / "script.txt").write_text(f"client a\n{script}")
    rows = sheet.count("\n")
    return name(rows, max(line.count(",") + 1 for line in sheet.splitlines()))


def told(seconds):
    return f"{seconds:8.3f}" if seconds != float("inf") else f"{'>' + str(LIMIT):>8}"


def main():
    runs, word = called_with(__doc__, 3)
    build()
    head(runs, "least of {runs} runs each, by the clock")
    with tempfile.TemporaryDirectory(prefix="antifreeze-bench-") as folder:
        folder = pathlib.Path(folder)
        print(f"{'1':>8} {'2':>8} {'4':>8} {'8':>8} {'most':>7} {'switches':>9} {'show':>8}")
        for what, made in SHEETS.items():
            if word in what:
                last = write(folder, made())
                live = [least(runs, folder, "live", "sheet.csv", "script.txt", "--workers", str(n)) for n in (1, 2, 4, 8)]
                show = least(runs, folder, "show", "sheet.csv", f"A1:{last}")[0]
                most = max(it[0] for it in live) / live[0][0] if live[0][0] != float("inf") else float("nan")
                print(" ".join(told(it[0]) for it in live), f"{most:7.2f} {live[2][1]:9} {told(show)}  {what}", flush=True)
        print(f"{'one':>8} {'four':>8} {'ratio':>7}")
        for what, (shape, size) in GROWING.items():
            if word in what:
                write(folder, shape(size))
                one = least(runs, folder, "live", "sheet.csv", "script.txt", "--workers", "4")[0]
                write(folder, shape(4 * size))
                four = least(runs, folder, "live", "sheet.csv", "script.txt", "--workers", "4")[0]
                print(f"{told(one)} {told(four)} {four / one:7.2f}  {what}", flush=True)


if __name__ == "__main__":
    main()
