#!/usr/bin/env python3
"""Runs `live` of the built program on sheets and scripts that are drawn by chance, and judges what each run writes.

Run by hand: bench/live_runs.py [--runs N] [--seed NUMBER] [--first NUMBER] [--program FILE] [--keep FOLDER]

A run has a sheet of numbers and of sums of cells, of up to 8 rows and 6 columns, some of them in cycles; a script of 1 to
32 clients with edits, batches and looks, plain and firm; and 1 to 64 workers. The rules of a live run are those of
tests/cli/judge_live.py, which computes cell by cell and knows nothing of the program: each client's edits stand in the log
once and in order; each look has a number that covers the client's own edits before it, and no later ones, and never
falls; a value is that of the sheet after so many edits of the log; a mark stands only where the log gives it; and the
closing sheet has the values after the whole log.

By default 10,000 runs of the seed 1, as many at once as there are processors. A line for each run that is none, with its
number; `--first NUMBER --runs 1 --keep FOLDER` makes its files again. Then a line with what was shown in all of them, and
last `N passed, M failed`; the status is 1 where a run failed.
"""

import argparse
import collections
import concurrent.futures
import os
import pathlib
import random
import re
import subprocess
import sys
import tempfile

from measuring import PROGRAM, build, judge

SECONDS = 60

JUDGE = judge()


class Drawn:
    """A sheet, a script and a number of workers, which turn on the seed and the number alone."""

    def __init__(self, seed, number):
        self.rng = random.Random(f"{seed} {number}")
        self.rows, self.cols = self.rng.randint(1, 8), self.rng.randint(1, 6)
        self.formulas = self.rng.choice((0.2, 0.5, 0.8))
        self.workers = self.rng.choice((1, 1, 2, 3, 4, 4, 8, 16, self.rng.randint(1, 64)))
        lines = [",".join(self.content() for _ in range(self.cols)) for _ in range(self.rows)]
        # (an empty line is no record)
        self.sheet = "".join(f"{it}\n" if it else '""\n' for it in lines)
        self.script = "".join(f"{it}\n" for it in self.lines())

    def cell(self):
        return f"{chr(65 + self.rng.randrange(self.cols))}{self.rng.randint(1, self.rows)}"

    def window(self):
        whole = f"A1:{chr(64 + self.cols)}{self.rows}"
        return self.rng.choice((self.cell(), f"{self.cell()}:{self.cell()}", whole))

    def content(self):
        if self.rng.random() < 0.1:
            return ""
        if self.rng.random() > self.formulas:
            return str(self.rng.randint(-99, 999))
        named = [self.cell() for _ in range(self.rng.choice((1, 1, 2, 3)))]
        return "=" + "+".join([*named, str(self.rng.randint(0, 9))])

    def change(self, cell):
        content = self.content()
        return f"set {cell} {content}" if content else f"clear {cell}"

    def command(self):
        kind = self.rng.random()
        if kind < 0.45:
            return [self.change(self.cell())]
        if kind < 0.55:
            cells = sorted({self.cell() for _ in range(self.rng.randint(1, 5))})
            return ["batch", *(self.change(it) for it in cells), "end"]
        return [f"{'look' if kind < 0.85 else 'firm'} {self.window()}"]

    def lines(self):
        clients = self.rng.choice((1, 2, 2, 3, 4, 8, 32))
        most = self.rng.choice((3, 10, 30)) if clients < 32 else 6
        for client in range(clients):
            yield f"client c{client}"
            for _ in range(self.rng.randint(0, most)):
                yield from self.command()


def try_run(program, seed, number, keep):
    """What is wrong with a run, and how often each kind of answer was shown in its reports."""
    drawn = Drawn(seed, number)
    with tempfile.TemporaryDirectory(prefix="antifreeze-live-") as room:
        room = pathlib.Path(keep or room)
        (room / "s").write_text(drawn.sheet)
        (room / "t").write_text(drawn.script)
        words = [program, "live", "s", "t", "--workers", str(drawn.workers)]
        try:
            ran = subprocess.run(words, cwd=room, stdin=subprocess.DEVNULL, capture_output=True, timeout=SECONDS)
        except subprocess.TimeoutExpired:
            return f"not done after {SECONDS} seconds", {}
        if keep:
            (room / "output").write_bytes(ran.stdout)
    if ran.returncode or ran.stderr:
        return f"status {ran.returncode}, {ran.stderr.decode()}", {}
    text = ran.stdout.decode()
    try:
        JUDGE.judge(drawn.sheet, drawn.script, text)
    except (AssertionError, ValueError, IndexError) as why:
        return f"{drawn.workers} workers, no legal run: {why}", {}
    shown = re.split("[,\n]", text.partition("\nclient ")[2].rpartition("\nsheet ")[0])
    return "", {
        "edits": int(text.split("\n", 1)[0][4:]),
        "looks": len(re.findall("^look ", text, re.M)),
        "firm looks": len(re.findall("^firm ", text, re.M)),
        "stale cells": sum(it.startswith("~") for it in shown),
        "newer cells": sum(it.startswith("^") for it in shown),
    }


def main():
    parser = argparse.ArgumentParser(description="Judges live runs of sheets and scripts that are drawn by chance.")
    parser.add_argument("--runs", type=int, default=10_000, metavar="N", help="how many runs (10000)")
    parser.add_argument("--seed", default="1", metavar="NUMBER", help="the seed of all runs (1)")
    parser.add_argument("--first", type=int, default=0, metavar="NUMBER", help="the number of the first run (0)")
    parser.add_argument("--program", metavar="FILE", help="run this program in place of the launcher's")
    parser.add_argument("--keep", metavar="FOLDER", help="leave the files of the last run there, and make one at a time")
    given = parser.parse_args()
    if not given.program:
        build()
    program = os.path.abspath(given.program) if given.program else str(PROGRAM)
    numbers = range(given.first, given.first + given.runs)
    totals, failed = collections.Counter(), 0
    with concurrent.futures.ProcessPoolExecutor(1 if given.keep else os.cpu_count()) as pool:
        count = len(numbers)
        told = pool.map(try_run, [program] * count, [given.seed] * count, numbers, [given.keep] * count, chunksize=20)
        for number, (wrong, shown) in zip(numbers, told):
            totals.update(shown)
            if wrong:
                failed += 1
                print(f"FAILED {number}: {wrong}", flush=True)
    print("; ".join(f"{count} {what}" for what, count in totals.items()))
    print(f"{given.runs - failed} passed, {failed} failed")
    return 1 if failed else 0


if __name__ == "__main__":
    sys.exit(main())
