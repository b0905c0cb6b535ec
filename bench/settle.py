#!/usr/bin/env python3
"""Times the settling of a live sheet, and of one level alone, by one desk and by four, by the clock, over programs in bench/.

Run by hand: bench/settle.py [RUNS] [WORD]. The programs are proved and built first, which takes long where nothing of them is
kept. A line for each of what is settled whose name contains WORD (all by default), of which nothing is computed before, with the
least of RUNS runs each (3 by default), in turn:

    one, four  milliseconds by the clock in which all cells are computed with one desk and with four
    ratio      the four divided by the one

In a chain each cell refers to the one above it, so that each level has one cell; in a fan all cells but the first refer to the
first. Both are settled by a live sheet, which plans the levels first (bench/live). The levels are columns of formulas that refer
to no cell; the desks settle them by themselves, with no plan (bench/settle). The number of processors stands in the first line,
since threads are what is measured.
"""

import subprocess
import sys

import live_program
import proved
from measuring import ROOT, called_with, head

LIBRARIES = "sheet_refs value_core formula_syntax formula_eval sheet_model csv_sheet mark_core mark_words recalc_workers edit_log recalc_trial".split()


def live(shape, rows):
    """A function that gives the nanoseconds in which a live sheet of that shape is settled by so many desks."""
    timed = live_program.built()
    return lambda desks: timed("settling", shape, rows, desks=desks)


def level(rows):
    """A function that gives the nanoseconds in which so many desks settle one level."""
    program = proved.program("settle_bench", ROOT / "bench" / "settle", LIBRARIES, ["10", "2"])

    def timed(desks):
        ran = subprocess.run([program, str(rows), str(desks)], stdout=subprocess.PIPE, text=True)
        if ran.returncode:
            sys.exit(f"bench: settle_bench ended with status {ran.returncode} with {desks} desks")
        return int(ran.stdout)

    return timed


def main():
    runs, word = called_with(__doc__, 3, of_program=False)
    settled = {
        "a live sheet, a chain of 100,000 cells": lambda: live("chain", 100_000),
        "a live sheet, a fan of 100,000 cells": lambda: live("fan", 100_000),
        "a level of 100,000 cells": lambda: level(100_000),
        "a level of 1,000,000 cells": lambda: level(1_000_000),
    }
    head(runs)
    print(f"{'one':>8} {'four':>8} {'ratio':>6}")
    for what, prepared in settled.items():
        if word not in what:
            continue
        timed = prepared()
        pairs = [(timed(1), timed(4)) for _ in range(runs)]
        one, four = (min(column) for column in zip(*pairs))
        print(f"{one / 1e6:8.1f} {four / 1e6:8.1f} {four / one:6.2f}  {what}", flush=True)


if __name__ == "__main__":
    main()
