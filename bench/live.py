#!/usr/bin/env python3
"""Times `live` of the built program beside `show`, `play` and itself, and the calls of a live sheet beside those of a book, by the
clock.

Run by hand: bench/live.py [--program FILE] [RUNS] [WORD]. A line for each pair whose name contains WORD (all by default), with the least of RUNS
runs each (3 by default), the two in turn:

    one, other  seconds by the clock of the whole run of the program, its output sent to a file
    ratio       the one divided by the other
    more        the one less the other, in seconds

The number of processors stands in the first line, since threads are what is measured. How the program is
started is that of bench/measuring.py. The calls are made by the program of bench/live, which is proved and built first, and
takes long where nothing of it is kept; `library` as WORD measures these alone, `program` the others.
"""

import pathlib
import tempfile

import live_program
import measuring
import responsive
from measuring import build, called_with, grid, head, lines, started, sums

LIVE = "live sheet.csv script.txt"
FOUR = f"{LIVE} --workers 4"
ONE = f"{LIVE} --workers 1"


def ledger():
    """A ledger of 50,000 rows and six columns."""
    return lines(50_000, measuring.ledger)


def pairs():
    """1,000 numbers, each with one cell that depends on it."""
    return lines(1_000, lambda row: f"{row},=A{row}*2")


def edits(count):
    """So many edits of one client, each of a number with one dependent."""
    return "".join(f"set A{at % 1_000 + 1} {at}\n" for at in range(count))


def of_clients(count, each):
    """So many clients with so many edits each."""
    return "".join(f"client c{client}\n{edits(each)}" for client in range(count))


def beside(others):
    """64 looks of one client at the first 64 columns, and so many edits of another one past them."""
    looks = "look A1:BL1024\n" * 64
    return f"client a\n{looks}client b\n" + "".join(f"set BN{at % 1_000 + 1} {at}\n" for at in range(others))


def wide():
    """65,536 numbers and sums, and a column of numbers that nothing refers to past an empty one."""
    return lines(1_024, lambda row: ",".join(sums(row, col) for col in range(1, 65)) + f",,{row}")


def doubled():
    """500,000 numbers, each with its double."""
    return lines(500_000, lambda row: f"{row},=A{row}*2")


def chains():
    """700 columns of chains, 700 rows deep, that all begin at A1."""
    return responsive.chains(700)[0]


def windows(rows, cells):
    """So many numbers, and sums of so many of them each."""
    return lines(rows, lambda row: f"{row},=SUM(A{row}:A{row + cells - 1})")


def products():
    """250,000 formulas of three products each."""
    return lines(250_000, lambda row: f"{row % 1_000},{row % 77},=A{row}*B{row}*3+A{row}*7*B{row}+B{row}*2*A{row}")


# The sheets that are settled: each with the range of all its cells, and an edit and a firm look.
SETTLED = {
    "a ledger of 50,000 rows": (ledger, "A1:F50000", "set C2 5\nfirm A1:B1\n"),
    "500,000 numbers and their doubles": (doubled, "A1:B500000", "set A2 5\nfirm B2\n"),
    "700 columns of chains, 700 rows deep": (chains, "A1:ZX700", "set A1 5\nfirm A1\n"),
    "100,000 sums of 100 cells": (lambda: windows(100_000, 100), "A1:B100000", "set A2 5\nfirm B2\n"),
}
# Those whose formulas take long.
DEAR = {
    "20,000 sums of 500 cells": lambda: windows(20_000, 500),
    "250,000 formulas of three products": products,
}
CLEAN = "firm A1000000\n"


def settled():
    """Each settled sheet with an empty script, and with an edit and a firm look, beside `show`."""
    for what, (sheet, cells, script) in SETTLED.items():
        show = f"show sheet.csv {cells}"
        yield f"an empty script on {what}, 4 workers; show of all cells", (sheet, FOUR, "", show, "")
        yield f"an edit and a firm look on {what}, 4 workers; show of all cells", (sheet, FOUR, script, show, "")


# What is measured: sheet, the words and the script of the one run, and those of the other.
MEASURED = {
    **dict(settled()),
    "an empty script on a ledger of 50,000 rows, 4 workers; with 1 worker": (ledger, FOUR, "", ONE, ""),
    **{f"an empty script on {what}, 1 worker; with 4 workers": (sheet, ONE, "", FOUR, "") for what, sheet in DEAR.items()},
    "100 firm looks of a clean cell behind a chain of 1,000,000; 100 looks": (
        lambda: measuring.chain(1_000_000), FOUR, CLEAN * 101, FOUR, CLEAN + "look A1000000\n" * 100,
    ),
    "100,000 edits of a number with one dependent, 4 workers; play": (pairs, FOUR, edits(100_000), "play sheet.csv script.txt", edits(100_000)),
    "the same, 1 worker; play": (pairs, ONE, edits(100_000), "play sheet.csv script.txt", edits(100_000)),
    "64 looks of 65,536 cells, 4 workers; none": (lambda: grid(sums), FOUR, "look A1:BL1024\n" * 64, FOUR, ""),
    "64 such looks beside 10,000 edits outside them, 1 worker; the looks alone": (wide, ONE, beside(10_000), ONE, beside(0)),
    "four clients with 25,000 edits each, 4 workers; one with 100,000": (pairs, FOUR, of_clients(4, 25_000), FOUR, of_clients(1, 100_000)),
}

# What calls of a live sheet are timed: what is done over which shape of how many rows, how often; and what beside.
CALLS = {
    "100,000 edits of a number with one dependent; by a book": (("edits", "pairs", 1_000, 1, 100_000), [("book", "pairs", 1_000, 1, 100_000)]),
    "an edit with 1,000,000 dependents; reading its sheet": (("edits", "level", 1_000_000, 1, 1), [("loading", "level", 1_000_000)]),
    "opening 1,048,576 cells, half of them formulas; reading and evaluating": (
        ("opening", "pairs", 524_288),
        [("loading", "pairs", 524_288), ("values", "pairs", 524_288)],
    ),
}
LOOKS = 200
CELLS = 65_536


def taken(folder, words, script):
    """The seconds of one run."""
    (folder / "script.txt").write_text(script)
    return started(folder, *words.split())[1]


def program(runs, word):
    """Prints the lines of the program."""
    with tempfile.TemporaryDirectory(prefix="antifreeze-bench-") as folder:
        folder = pathlib.Path(folder)
        for what, (sheet, words, script, other_words, other_script) in MEASURED.items():
            if word in f"program: {what}":
                (folder / "sheet.csv").write_text(sheet())
                line(what, [(taken(folder, words, script), taken(folder, other_words, other_script)) for _ in range(runs)])


def line(what, times):
    """Prints the least of two times, and what they are to one another."""
    one, other = (min(it) for it in zip(*times))
    print(f"{one:8.3f} {other:8.3f} {one / other:7.2f} {one - other:7.3f}  {what}", flush=True)


def library(runs, word):
    """Prints the lines of calls, the time of a look for each cell, and the memory of an open sheet for each cell."""
    timed = live_program.built()
    for what, (one, others) in CALLS.items():
        if word in f"library: {what}":
            line(what, [(timed(*one) / 1e9, sum(timed(*it) for it in others) / 1e9) for _ in range(runs)])
    if word in "library: looks":
        looks = min(timed("looks", "numbers", CELLS, 1, LOOKS) for _ in range(runs))
        print(f"{looks / LOOKS / CELLS:8.2f} nanoseconds for each cell of a look of {CELLS:,} cells")
    if word in "library: memory":
        print(f"{live_program.peak('opening', 'pairs', 524_288) / 1_048_576:8.0f} bytes for each cell of such a sheet, open")


def main():
    runs, word = called_with(__doc__, 3)
    build()
    head(runs, "least of {runs} runs each, by the clock")
    print(f"{'one':>8} {'other':>8} {'ratio':>7} {'more':>7}")
    program(runs, word)
    if any(word in f"library: {what}" for what in (*CALLS, "looks", "memory")):
        library(runs, word)


if __name__ == "__main__":
    main()
