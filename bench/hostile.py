#!/usr/bin/env python3
"""Times each command of the built program on the dearest formulas, and on formulas a quarter as long.

Run by hand: bench/hostile.py [--program FILE] [RUNS] [WORD]. A line for each command and kind of formula whose name contains WORD (all by default), with
the least of RUNS runs each (3 by default), the two lengths in turn. The formula stands in 1,000 cells, or in as many lines of a script:

    quarter   seconds of processor time with formulas of a quarter of the length
    whole     seconds of processor time with formulas as long as they may be
    ratio     the one divided by the other, both without the time of the same command over a sheet of one cell

Four times the length takes at most six times as long: with a greater ratio the line ends with `TOO LONG`, and the status is 1.

How it starts the program is that of bench/measuring.py.
"""

import pathlib
import sys
import tempfile

from measuring import build, called_with, head, name, started

CELLS = 1_000
MOST = 6

# The kinds of formulas, each by a part of its greatest length.
FORMULAS = {
    "references": lambda part: "=" + "+".join(name(number, 3 + number % 9) for number in range(255 // part, 0, -1)),
    "parentheses": lambda part: "=" + "(" * (64 // part) + "1" + ")" * (64 // part),
    "operators": lambda part: "=" + "+".join(["1"] * (4_096 // part)),
    "powers in products in sums": lambda part: "=1" + "+2*3^1*1" * (1_020 // part),
    "operators in parentheses": lambda part: "=" + ("1=" + "1+" * (58 // part) + "(") * 64 + "1" + ")" * 64,
    "signs": lambda part: "=" + "-" * (8_190 // part) + "1",
    "digits": lambda part: "=" + "0" * (8_190 // part) + "1",
}


def column(content):
    """A sheet of so many rows: a number, and the content."""
    return f"{content},\n" * CELLS


def edits(formula):
    """A script that puts the formula into each cell of the first column, and looks at the last."""
    return "".join(f"set A{row} {formula}\n" for row in range(1, CELLS + 1)) + f"firm A{CELLS}\n"


# The commands: the sheet, the script and the words, of a formula.
COMMANDS = {
    "show": lambda formula: (column(formula), "", f"show sheet.csv A1:A{CELLS}"),
    "check": lambda formula: (column(formula), "", "check sheet.csv"),
    "fill": lambda formula: (formula + ",\n" + ",\n" * CELLS, "", f"fill sheet.csv A1 A1:A{CELLS + 1}"),
    "play": lambda formula: (column("1"), edits(formula), "play sheet.csv script.txt"),
    "live": lambda formula: (column("1"), edits(formula), "live sheet.csv script.txt"),
    "undo": lambda formula: (
        column(formula), "batch\n" + "".join(f"set A{row} 1\n" for row in range(1, CELLS + 1)) + "end\n", "undo sheet.csv script.txt 1"),
}


def least(folder, command, formula, runs):
    """The least time of a command over a formula."""
    sheet, script, words = COMMANDS[command](formula)
    (folder / "sheet.csv").write_text(sheet)
    (folder / "script.txt").write_text(script)
    return min(started(folder, *words.split())[0] for _ in range(runs))


def main():
    runs, word = called_with(__doc__, 3)
    build()
    head(runs)
    print(f"{'quarter':>8} {'whole':>8} {'ratio':>7}")
    failed = False
    with tempfile.TemporaryDirectory(prefix="antifreeze-bench-") as folder:
        folder = pathlib.Path(folder)
        for command in COMMANDS:
            start = least(folder, command, "1", runs)
            for kind, formula in FORMULAS.items():
                what = f"{command}: {kind}"
                if word not in what:
                    continue
                quarter, whole = (least(folder, command, formula(part), runs) for part in (4, 1))
                ratio = max(whole - start, 0) / max(quarter - start, 0.001)
                note = "  TOO LONG" if ratio > MOST else ""
                failed |= bool(note)
                print(f"{quarter:8.3f} {whole:8.3f} {ratio:7.2f}  {what}{note}", flush=True)
    sys.exit(failed)


if __name__ == "__main__":
    main()
