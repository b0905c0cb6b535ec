#!/usr/bin/env python3
"""Times how soon edits and looks are answered: on an idle sheet, and while 4 workers recompute a million cells.

Run by hand: bench/answers.py [ROUNDS] [--draw] [--program FILE] [--shown-by FILE]. The program of bench/answers runs `live` with a gate that notes the clock
ahead of each command. It is proved and built first, which takes long where nothing of it is kept, unless FILE names it. Over a
sheet of one column, in which one cell has 1,000,000 dependents, one 1,000 and one 1, the least of ROUNDS rounds each (5 by default):

    edit    milliseconds from the begin of an edit to its answer, on an idle sheet and while a million cells are recomputed
    look    milliseconds of a look at 1,000 cells, the median and the 99th of 100, by another client, in both cases
    show    seconds of `show` of all cells of the sheet, and of one cell, which reads the sheet alone

The least says little of an edit that waits for a lock, so the greatest of all rounds is beside it. With --draw, docs/figures/answers.svg
is drawn of the edits, beside `show` of the sheet. The machine should do nothing else.
"""

import argparse
import pathlib
import statistics
import subprocess
import sys
import tempfile

import figures
import measuring
import proved
from measuring import ROOT, head, lines, machine, started

LIBRARIES = "sheet_refs sheet_io recalc_workers sheet_cli".split()
MANY, SOME = 1_000_000, 1_000
# The rows of the cells on which many, some and one depend.
FIRST, SECOND, THIRD = 1, MANY + 2, MANY + SOME + 3
ROWS = THIRD + 1
# The most rows of a window of one column.
WINDOW = 65_536
LOOKS = 100
PAUSE = 1_000


def content(row):
    """What is in a row: a number, or a reference to the number above."""
    if row in (FIRST, SECOND, THIRD):
        return str(row)
    head_row = FIRST if row < SECOND else SECOND if row < THIRD else THIRD
    return f"=A${head_row}+1"


def firm_looks():
    """Firm looks at all cells, after which nothing is left to compute."""
    tops = range(1, ROWS + 1, WINDOW)
    return [f"firm A{top}:A{min(top + WINDOW - 1, ROWS)}" for top in tops]


def edits(rounds):
    """The commands of the client that edits, and for each of its edits what it is: None for a command that isn't measured."""
    commands = [(line, None) for line in firm_looks()]
    for number in range(rounds):
        commands += [(f"set A{row} {number}", f"idle {count}") for row, count in ((THIRD, 1), (SECOND, SOME))]
        commands.append((f"firm A{SECOND}:A{ROWS}", None))
        commands.append((f"set A{FIRST} {number}", f"idle {MANY}"))
        commands += [(f"set A{row} {number + rounds}", f"busy {count}") for row, count in ((THIRD, 1), (SECOND, SOME), (FIRST, MANY))]
        commands += [(line, None) for line in firm_looks()]
    return commands + [("look A1", None)]


def run(program, folder, script, pause):
    """For each client the nanoseconds of its commands."""
    (folder / "script.txt").write_text(script)
    with open(folder / "output", "wb") as output:
        ran = subprocess.run([program, str(pause), "live", "sheet.csv", "script.txt", "--workers", "4"],
                             cwd=folder, stdout=output, stderr=subprocess.PIPE, text=True)
    if ran.returncode:
        sys.exit(f"bench/answers.py: the run ended with status {ran.returncode}: {ran.stderr[-500:]}")
    taken = {}
    for line in ran.stderr.splitlines():
        client, _, nanoseconds = line.split()
        taken.setdefault(int(client), []).append(int(nanoseconds) / 1e6)
    return taken


def measure_edits(program, folder, rounds):
    """Prints the lines of edits; gives the least time of each kind."""
    commands = edits(rounds)
    script = "client a\n" + "".join(f"{line}\n" for line, _ in commands)
    taken = run(program, folder, script, 0)[0]
    kinds = {}
    for (_, kind), time in zip(commands, taken):
        if kind:
            kinds.setdefault(kind, []).append(time)
    for kind, times in kinds.items():
        print(f"{min(times):9.3f} {max(times):9.3f}  edit, {kind} dependents", flush=True)
    return {kind: min(times) for kind, times in kinds.items()}


def measure_looks(program, folder, rounds):
    """Prints the lines of looks."""
    window = f"look A{SECOND - SOME}:A{SECOND - 1}\n"
    looks = "client b\n" + window * (LOOKS + 1)
    firm = "".join(f"{line}\n" for line in firm_looks())
    busy = "".join(f"set A{FIRST} {number}\n" + f"firm A{FIRST}\n" for number in range(rounds))
    for what, edited in (("idle", f"client a\nlook A{FIRST}\n"), ("busy", f"client a\n{busy}{firm}")):
        times = sorted(run(program, folder, edited + looks, PAUSE)[1][:LOOKS])
        print(f"{statistics.median(times):9.3f} {times[98]:9.3f}  look at {SOME:,} cells, {what}: median, 99th of {LOOKS}", flush=True)


def measure_show(folder, rounds):
    """Prints the lines of `show`; gives the least time for all cells, in milliseconds."""
    least = {}
    for words in (f"A1:A{ROWS}", "A1:A1"):
        times = [started(folder, "show", "sheet.csv", words)[1] for _ in range(rounds)]
        print(f"{min(times):9.3f} {max(times):9.3f}  seconds of show {words}", flush=True)
        least[words] = min(times) * 1e3
    return least[f"A1:A{ROWS}"]


def draw(edited, shown, where):
    """Draws how soon edits are answered, over their dependents."""
    times = {}
    for kind, time in edited.items():
        state, count = kind.split()
        times.setdefault(state, []).append((int(count), time))
    series = {
        "edit, 4 workers busy": times["busy"],
        "edit, idle sheet": times["idle"],
        "show of the sheet": [(MANY, shown)],
    }
    figures.chart("answers", where, "How soon an edit is answered", "cells that depend on the edited one", "milliseconds", {"": series})


def main():
    parser = argparse.ArgumentParser(description=__doc__, formatter_class=argparse.RawDescriptionHelpFormatter)
    parser.add_argument("rounds", nargs="?", type=int, default=5, metavar="ROUNDS")
    parser.add_argument("--draw", action="store_true", help="draw docs/figures/answers.svg")
    parser.add_argument("--program", metavar="FILE", type=pathlib.Path, help="the program of bench/answers, built")
    parser.add_argument("--shown-by", metavar="FILE", type=pathlib.Path, help="time `show` by this program in place of the launcher's")
    given = parser.parse_args()
    program = given.program.resolve() if given.program else proved.program("live_answers", ROOT / "bench" / "answers", LIBRARIES, ["0"])
    if given.shown_by:
        measuring.PROGRAM = given.shown_by.resolve()
    # (the load is asked for once, before the first run: later it would be mostly that of the runs themselves)
    where = machine()
    head(given.rounds, "{runs} rounds, by the clock")
    print(f"{'least':>9} {'greatest':>9}  milliseconds")
    with tempfile.TemporaryDirectory(prefix="antifreeze-bench-") as folder:
        folder = pathlib.Path(folder)
        (folder / "sheet.csv").write_text(lines(ROWS, content))
        edited = measure_edits(program, folder, given.rounds)
        measure_looks(program, folder, given.rounds)
        shown = measure_show(folder, given.rounds)
    if given.draw:
        draw(edited, shown, where)


if __name__ == "__main__":
    main()
