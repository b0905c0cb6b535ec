#!/usr/bin/env python3
"""Times `deps` and `check` of the built program beside `show` of the same sheet.

Run by hand: bench/graph.py [--program FILE] [RUNS] [WORD]. A line for each sheet whose name contains WORD (all by default), with the least of RUNS
runs each (5 by default), the commands in turn:

    show      seconds of processor time of `show` of a cell below all others that adds them up, so that all are computed
    deps      the time of `deps` of one cell, divided by that
    check     the time of `check`, divided by that
    us/pair   microseconds of `check` for each pair
    edges     how many edges stand for how many pairs
    B/pair    the most memory that `check` had resident, divided by the pairs

Below them stand the times of two lines that tell something together, the second's divided by the first's.

Then come commands of one sheet in two sizes, of which the second is four times the first: the seconds and megabytes of both, and the
second's divided by the first's, which is at most 6. After them stands the same sheet laid out down and laid out across, in two sizes:
the seconds of both, and the edges of both where they are told; neither takes more than twice the time of the other, nor more than a
tenth more edges. Last come edits of a cell near the left and near the right end.

How it starts the program is that of bench/measuring.py.
"""

import pathlib
import random
import tempfile

from measuring import LETTERS, build, called_with, chain, head, lines, name, started, with_total


def books(row):
    """A booking with five formulas: the rest, the balance, the last seven, a product with the first cell, and a mark."""
    before = f"D{row - 1}+" if row > 1 else ""
    return f"{row % 900},{row % 700},=A{row}-B{row},={before}C{row},=SUM(B{max(row - 6, 1)}:B{row}),=A{row}*$A$1,=IF(C{row}<0;1;0)"


def at_random(row):
    """A formula of two references to cells drawn from 100,000 rows and 25 columns beside the first."""
    draw = random.Random(row)
    one, other = (f"{draw.choice(LETTERS[1:])}{draw.randint(1, 100_000)}" for _ in range(2))
    return f"={one}+{other}"


def fan(count):
    """Each cell but the first refers to that one."""
    return lines(count, lambda r: "=$A$1*2" if r > 1 else "1")


def shared(count, rows):
    """Each so many cells of a column refer to one cell, those below them to the next such cell."""
    return lines(count, lambda r: f"=$B${r - (r - 1) % rows}")


def sums_above(count, least, most):
    """Each cell but the first adds up the cells above it, of which it takes between so few and so many."""
    return lines(count, lambda r: f"=SUM(A{max(r - random.Random(r).randint(least, most), 1)}:A{r - 1})" if r > 1 else "1")


def drawn_chain(with_sums):
    """A chain through 1,000 rows and 40 columns from C1, in an order that is drawn, beside 20,000 sums of prefixes of two columns or as many numbers."""
    cells = [(row, col) for row in range(1, 1_001) for col in range(3, 43)]
    random.Random(1).shuffle(cells)
    cells.insert(0, cells.pop(cells.index((1, 3))))
    before = {cell: name(*last) for last, cell in zip(cells, cells[1:])}

    ends = random.Random(2)

    def line(row):
        steps = (f"={before[row, col]}+1" if (row, col) in before else "1" for col in range(3, 43))
        beside = (f"=SUM($A$1:B{end})" if with_sums else str(end) for end in (ends.randint(1, 1_024) for _ in range(20)))
        return ",".join([str(row), "2", *steps, *beside])

    return lines(1_000, line)


def alike(references):
    """5,000 rows, in each of which the first cell refers to so many cells behind it."""
    return lines(5_000, lambda r: "=SUM(" + ";".join(name(r, col) for col in range(2, references + 2)) + ")")


# The sheets that are measured.
MEASURED = {
    "100,000 formulas =$A$1*2": lambda: lines(100_000, lambda r: f"{r},=$A$1*2"),
    "a chain of 100,000": lambda: chain(100_000),
    "5,000 sums =SUM($A$1:Ar)": lambda: lines(5_000, lambda r: f"{r},=SUM($A$1:A{r})"),
    "a ledger of 50,000 rows with five formulas": lambda: lines(50_000, books),
    "5,000 rows of 32 references": lambda: alike(32),
    "5,000 rows of 128 references": lambda: alike(128),
    "5,000 rows of 255 references": lambda: alike(255),
    "a fan of 10,000": lambda: fan(10_000),
    "a fan of 1,000,000": lambda: fan(1_000_000),
    "a chain of 10,000": lambda: chain(10_000),
    "a chain of 1,000,000": lambda: chain(1_000_000),
    "100,000 formulas with references drawn at random": lambda: lines(100_000, at_random),
    "1,000,000 cells of which each eight share a reference": lambda: shared(1_000_000, 8),
    "1,000,000 cells of which each ten share a reference": lambda: shared(1_000_000, 10),
    "100,000 sums of the 2 to 7 cells above": lambda: sums_above(100_000, 2, 7),
    "100,000 sums of the 9 to 30 cells above": lambda: sums_above(100_000, 9, 30),
    "a drawn chain of 40,000 beside 20,000 numbers": lambda: drawn_chain(False),
    "a drawn chain of 40,000 beside 20,000 sums =SUM($A$1:Bk)": lambda: drawn_chain(True),
}

# The cells whose dependents are asked for, where it isn't A1.
ASKED = {what: "C1" for what in MEASURED if "drawn chain" in what}

# Lines of which the second's command is to take little more than the first's.
COMPARED = [
    ("check", "1,000,000 cells of which each eight share a reference", "1,000,000 cells of which each ten share a reference"),
    ("deps", "100,000 sums of the 2 to 7 cells above", "100,000 sums of the 9 to 30 cells above"),
    ("deps", "a drawn chain of 40,000 beside 20,000 numbers", "a drawn chain of 40,000 beside 20,000 sums =SUM($A$1:Bk)"),
]


def placed(across, time, line):
    """The name of the cell of a time and a line, where time runs down or across."""
    return name(line, time) if across else name(time, line)


def laid(across, times, count, content):
    """A text of so many times and lines, which run down and across or the other way round."""
    outer, inner = (count, times) if across else (times, count)

    def row(number):
        return ",".join(content(other, number) if across else content(number, other) for other in range(1, inner + 1))

    return lines(outer, row)


def ledgers(across, times, count):
    """So many ledgers of seven lines: in, out, the rest, the balance, the last seven, a product with the first cell, and a mark."""
    def content(time, line):
        first = (line - 1) // 7 * 7 + 1

        def at(place, when=time):
            return placed(across, when, first + place)

        before = f"{at(3, time - 1)}+" if time > 1 else ""
        fixed = "".join(f"${part}" for part in (placed(across, 1, first).rstrip("0123456789"), placed(across, 1, first).lstrip(LETTERS)))
        return [
            str(time % 900),
            str(time % 700),
            f"={at(0)}-{at(1)}",
            f"={before}{at(2)}",
            f"=SUM({at(1, max(time - 6, 1))}:{at(1)})",
            f"={at(0)}*{fixed}",
            f"=IF({at(2)}<0;1;0)",
        ][line - first]

    return laid(across, times, 7 * count, content)


def counts_over_a_chain(across, times):
    """Beside each cell of a chain the count of the chain so far."""
    def content(time, line):
        if line == 1:
            return f"=COUNT({placed(across, 1, 2)}:{placed(across, time, 2)})"
        return f"={placed(across, time - 1, 2)}+1" if time > 1 else "1"

    return laid(across, times, 2, content)


def growing_sums(across, times):
    """Beside each number the sum of the numbers so far."""
    return laid(across, times, 2, lambda time, line: str(time) if line == 1 else f"=SUM({placed(across, 1, 1)}:{placed(across, time, 1)})")


def levels(count):
    """So many cells that refer to A1, as many that each add these up, none beside another of its kind, and one that refers to the last."""
    return lines(2 * count, lambda r: ("1" if r == 1 else "") + (f",=$A$1+{r},=COUNT($B$1:$B${2 * count})" if r % 2 else ",,") + (f",=C{2 * count - 1}" if r == 1 else ","))


def blocks(count):
    """So many formulas that name a block of all columns but the first, up to a row that is drawn."""
    draw = random.Random(3)
    return lines(count, lambda r: f"=COUNT(B1:XFD{draw.randint(1, count)})")


def by_turns(count):
    """Counts of the cells above, by turns from the first and from the second."""
    return lines(count, lambda r: f"=COUNT(A{2 - r % 2}:A{r - 1})" if r > 2 else str(r))


def unlike(formulas):
    """500 rows of so many formulas with 255 references drawn at random."""
    draw = random.Random(4)

    def formula():
        return "=SUM(" + ";".join(name(draw.randint(1, 100_000), draw.randint(300, 700)) for _ in range(255)) + ")"

    return lines(500, lambda r: ",".join(formula() for _ in range(formulas)))


def block(across, times):
    """A block of 40 lines of formulas beside one of numbers, of which each refers to the number at its place, and to the cell before it."""
    def content(time, line):
        if line <= 40:
            return str(time % 900)
        before = f"+{placed(across, time - 1, line)}" if time > 1 else ""
        return f"={placed(across, time, line - 40)}{before}"

    return laid(across, times, 80, content)


def chains(across, times):
    """40 chains side by side, each from a number."""
    return laid(across, times, 40, lambda time, line: f"={placed(across, time - 1, line)}+{line}" if time > 1 else str(line))


def edits(cell, count):
    """So many edits of one cell."""
    return lines(count, lambda r: f"set {cell} {r % 7}")


# Commands of a sheet in two sizes, the second four times the first: the words, what makes the text, and both sizes.
GROWING = {
    "path over levels of so many ranges": (["path", "sheet.csv", "A1", "D1"], levels, (1_000, 4_000)),
    "precs of formulas that name B1:XFDk": (["precs", "sheet.csv", "A1:A20000"], blocks, (5_000, 20_000)),
    "deps of counts by turns": (["deps", "sheet.csv", "A1"], by_turns, (5_000, 20_000)),
    "deps of counts above a chain": (["deps", "sheet.csv", "A2"], lambda count: counts_over_a_chain(True, count), (4_096, 16_384)),
    "check of 500 rows of formulas with 255 unlike references": (["check", "sheet.csv"], unlike, (1, 4)),
    "check of nine ledgers across": (["check", "sheet.csv"], lambda count: ledgers(True, count, 9), (2_000, 8_000)),
}

# The same sheet laid out down and across: the words of both, what makes the text, and both sizes.
TURNED = {
    "check of nine ledgers": (["check", "sheet.csv"], ["check", "sheet.csv"], lambda across, count: ledgers(across, count, 9), (2_000, 8_000)),
    "check of growing sums": (["check", "sheet.csv"], ["check", "sheet.csv"], growing_sums, (4_096, 16_384)),
    "check of a block of 40 lines": (["check", "sheet.csv"], ["check", "sheet.csv"], block, (1_000, 4_000)),
    "check of 40 chains": (["check", "sheet.csv"], ["check", "sheet.csv"], chains, (1_000, 4_000)),
    "deps of counts beside a chain": (["deps", "sheet.csv", "B1"], ["deps", "sheet.csv", "A2"], counts_over_a_chain, (4_096, 16_384)),
}

# Edits of a cell near the left and near the right end, and how many.
EDITED = ("edits of a cell in column B, and in column XFC", ("B1", "XFC1"), (10_000, 40_000))


def timed(folder, *words):
    """The time and the peak of one run."""
    taken, _, peak = started(folder, *words)
    return taken, peak


def measure(folder, runs, text, asked):
    """The least times of the three commands, in as many runs, in turn, and what the last `check` says and takes."""
    (folder / "sheet.csv").write_text(text)
    added_up, total = with_total(text)
    (folder / "total.csv").write_text(added_up)
    shows, deps, checks = [], [], []
    for _ in range(runs):
        shows.append(timed(folder, "show", "total.csv", total)[0])
        deps.append(timed(folder, "deps", "sheet.csv", asked)[0])
        taken, peak = timed(folder, "check", "sheet.csv")
        checks.append(taken)
    with open(folder / "output") as output:
        pairs, edges = (int(output.readline().split()[1]) for _ in range(2))
    return min(shows), min(deps), min(checks), pairs, edges, peak


def least(folder, runs, words):
    """The least time and peak of so many runs."""
    taken = [timed(folder, *words) for _ in range(runs)]
    return min(time for time, _ in taken), min(peak for _, peak in taken)


def told_edges(folder):
    """How many edges the last `check` told; none after another command."""
    with open(folder / "output") as output:
        told = [output.readline().split() for _ in range(2)]
    return f", {int(told[1][1]):,} edges" if [part[:1] for part in told] == [["pairs"], ["edges"]] else ""


def measure_growing(folder, runs, what):
    """A line of a command in two sizes."""
    words, text, sizes = GROWING[what]
    taken = []
    for size in sizes:
        (folder / "sheet.csv").write_text(text(size))
        taken.append(least(folder, runs, words))
    (short, small), (long, large) = taken
    print(f"{short:8.3f} {long:8.3f} {long / short:6.2f} {small / 1e6:7.0f} {large / 1e6:7.0f} {large / small:6.2f}  {sizes[0]:,} and {sizes[1]:,}: {what}", flush=True)


def measure_turned(folder, runs, what):
    """A line for each size of a sheet laid out down and across."""
    down, across, text, sizes = TURNED[what]
    for size in sizes:
        taken, edges = [], []
        for turned, words in ((False, down), (True, across)):
            (folder / "sheet.csv").write_text(text(turned, size))
            taken.append(least(folder, runs, words)[0])
            edges.append(told_edges(folder))
        print(f"{taken[0]:8.3f} {taken[1]:8.3f} {taken[1] / taken[0]:6.2f}  {size:,}: {what}, down{edges[0]}, and across{edges[1]}", flush=True)


def measure_edited(folder, runs):
    """A line for each number of edits of a cell near the left and near the right end."""
    what, cells, sizes = EDITED
    (folder / "sheet.csv").write_text(f"1{',' * 16_383}2\n")
    for size in sizes:
        taken = []
        for cell in cells:
            (folder / "script").write_text(edits(cell, size))
            taken.append(least(folder, runs, ["play", "sheet.csv", "script"])[0])
        print(f"{taken[0]:8.3f} {taken[1]:8.3f} {taken[1] / taken[0]:6.2f}  {size:,} {what}", flush=True)


def main():
    runs, word = called_with(__doc__, 5)
    build()
    head(runs)
    print(f"{'show':>8} {'deps':>7} {'check':>7} {'us/pair':>8} {'B/pair':>8}  edges of pairs")
    with tempfile.TemporaryDirectory(prefix="antifreeze-bench-") as folder:
        folder = pathlib.Path(folder)
        taken = {}
        for what, text in MEASURED.items():
            if word not in what:
                continue
            show, deps, check, pairs, edges, peak = measure(folder, runs, text(), ASKED.get(what, "A1"))
            taken["deps", what], taken["check", what] = deps, check
            print(f"{show:8.3f} {deps / show:7.2f} {check / show:7.2f} {check / pairs * 1e6:8.2f} {peak / pairs:8.0f}  {edges:,} of {pairs:,}: {what}", flush=True)
        for command, first, second in COMPARED:
            if (command, first) in taken and (command, second) in taken:
                print(f"{taken[command, second] / taken[command, first]:5.2f} {command} of {second}, by that of {first}")
        print(f"{'small':>8} {'large':>8} {'ratio':>6} {'MB':>7} {'MB':>7} {'ratio':>6}")
        for what in GROWING:
            if word in what:
                measure_growing(folder, runs, what)
        print(f"{'first':>8} {'second':>8} {'ratio':>6}")
        for what in TURNED:
            if word in what:
                measure_turned(folder, runs, what)
        if word in EDITED[0]:
            measure_edited(folder, runs)


if __name__ == "__main__":
    main()
