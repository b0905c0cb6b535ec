#!/usr/bin/env python3
"""Times `play` of the built program on large sheets and scripts, beside `show` of the same sheet.

Run by hand: bench/play.py [--program FILE] [RUNS] [WORD]. A line for each sheet and script whose name contains WORD (all by default), with the least
of RUNS runs each (3 by default), the two commands in turn:

    show      seconds of processor time of `show` of a cell below all others that adds them up, so that all are computed;
              where they lead into circles, which such a cell would share, of all cells
    play      seconds of processor time of `play`
    ratio     play divided by show

How it starts the program is that of bench/measuring.py.
"""

import pathlib
import tempfile

from measuring import build, called_with, chain, head, lines, started, with_total


def total_on_top(count):
    """The total of a column above it, an input, and formulas of that input."""
    return f"=SUM(A3:A{count})\n1\n" + lines(count - 2, lambda r: "=$A$2*2")


def circles(count):
    """An input, and so many circles of two cells each, all of which lead to it."""
    return "1,\n" + lines(count, lambda r: f"=B{r + 1}+$A$1,=A{r + 1}")


def doubled(count):
    """So many rows of a number and its double."""
    return lines(count, lambda r: f"{r},=A{r}*2")


def growing_sums(count):
    """So many rows of a number, the total of the numbers so far, and an empty cell."""
    return lines(count, lambda r: f"{r},=SUM(A$1:A{r}),")


# A cell that adds up circles is circular itself, and is so at the first one that it comes to: there all cells are shown.
CIRCLES = "50,000 circles of two, half of their turns"
ALL_OF_CIRCLES = "A1:B50001"

# What is measured: the sheet's text and the script's.
MEASURED = {
    "a chain of 100,000, all its turns": (lambda: chain(100_000), lambda: "set A1 2\nlook A1\nwork 100000\nlook A100000\n"),
    "a chain of 100,000, half of its turns": (lambda: chain(100_000), lambda: "set A1 2\nlook A1\nwork 50000\nlook A100000\n"),
    "a chain of 100,000, a firm look": (lambda: chain(100_000), lambda: "set A1 2\nfirm A100000\n"),
    "a total above 100,000 cells, half of their turns": (
        lambda: total_on_top(100_000), lambda: "set A2 2\nwork 50000\nlook A1\n"),
    CIRCLES: (lambda: circles(50_000), lambda: "set A1 2\nwork 50000\nlook A2\n"),
    "100,000 lines of one turn over a chain of 100,000": (
        lambda: chain(100_000), lambda: "set A1 2\n" + "work 1\n" * 100_000 + "look A100000\n"),
    "100 edits and turns by turns beside a chain of 100,000": (
        lambda: chain(100_000).replace("\n", ",\n"), lambda: "set A1 2\n" + lines(100, lambda r: f"set B{r} {r}\nwork 1")),
    "100 edits of 1,000,000 cells, a look at others behind each": (
        lambda: doubled(500_000), lambda: lines(100, lambda r: f"set A{r} 7\nlook A{r + 1000}:B{r + 1000}")),
    "100 edits of 1,000,000 cells, a firm look behind each": (
        lambda: doubled(500_000), lambda: lines(100, lambda r: f"set A{r} 7\nfirm A{r}:B{r}")),
    "200 edits beside 5,000 growing sums, a look at the last behind each": (
        lambda: growing_sums(5_000), lambda: lines(200, lambda r: f"set C1 {r}\nlook B5000:C5000")),
    "200 edits of a number in 5,000 growing sums, a firm look at the first behind each": (
        lambda: growing_sums(5_000), lambda: lines(200, lambda r: f"set A1 {r}\nfirm A1:B1")),
    "1,048,576 lines that say nothing": (lambda: "1\n", lambda: "#\n" * 1_048_576),
    "1,048,576 edits of 1,000 cells": (
        lambda: "1\n" * 1_000, lambda: lines(1_048_576, lambda r: f"set A{r % 1_000 + 1} {r % 10}")),
}


def measure(folder, runs, what, text, script):
    """The least times of the two commands, in as many runs, in turn."""
    (folder / "sheet.csv").write_text(text)
    (folder / "script.txt").write_text(script)
    shown, window = (text, ALL_OF_CIRCLES) if what == CIRCLES else with_total(text)
    (folder / "shown.csv").write_text(shown)
    shows, plays = [], []
    for _ in range(runs):
        shows.append(started(folder, "show", "shown.csv", window)[0])
        plays.append(started(folder, "play", "sheet.csv", "script.txt")[0])
    return min(shows), min(plays)


def main():
    runs, word = called_with(__doc__, 3)
    build()
    head(runs)
    print(f"{'show':>8} {'play':>8} {'ratio':>7}")
    with tempfile.TemporaryDirectory(prefix="antifreeze-bench-") as folder:
        folder = pathlib.Path(folder)
        for what, (text, script) in MEASURED.items():
            if word not in what:
                continue
            show, play = measure(folder, runs, what, text(), script())
            print(f"{show:8.3f} {play:8.3f} {play / show:7.2f}  {what}", flush=True)


if __name__ == "__main__":
    main()
