#!/usr/bin/env python3
"""Measures the built program over sheets of growing size, beside other spreadsheet programs and over the number of workers, prints
the tables, and draws them as SVG into docs/figures/.

Run by hand, on a machine that does nothing else: bench/figures.py [--program FILE] [RUNS] [NAME]. Each time is the least of RUNS
runs (3 by default), those of one line in turn; NAME draws the figures whose names contain it alone. Each figure says of which machine
it is, with its processors, its load before the first run and the day. An axis ends where the data ends; of lines in one panel a later
one is thinner, so that none hides another where they meet.

    commands    show of all cells, deps of A1 and check, over the number of cells: a chain, a fan, a ledger
    peers       show of all cells of a ledger, over their number, beside the programs that are installed, as bench/peers.py finds
                them: ssconvert of Gnumeric, LibreOffice, and a small program over libixion
    edges       the edges of check beside its pairs, over the number of cells: a chain, a fan, a ledger, and one laid out across
    workers     live with an edit and a firm look over the number of workers, on four of the sheets of responsive.py

It needs nothing but Python's own modules.
"""

import math
import pathlib
import sys
import tempfile

import responsive
from measuring import ROOT, STARTER, build, called_with, chain, ledger, lines, machine, name as cell, started, told
from peers import others

FIGURES = ROOT / "docs" / "figures"
# The room round the panels and between them, and how large a panel is where they are so many side by side.
LEFT, TOP, RIGHT, BOTTOM, ACROSS, DOWN = 80, 60, 190, 70, 60, 62
PANELS = {1: (490, 300), 2: (300, 200), 3: (230, 240)}
# The colours of lines and how wide they are, the first drawn first.
COLOURS = (("#9cc4e4", 7), ("#c8553d", 4.5), ("#3a7d44", 2.5), ("#222222", 1))
SIZES = (1_000, 3_000, 10_000, 30_000, 100_000)


def fan(count):
    """Each cell but the first refers to that one."""
    return lines(count, lambda row: "=$A$1*2" if row > 1 else "1")


def of_rows(count):
    """A ledger of so many cells, six a row."""
    return lines(count // 6, ledger)


def laid_across(count):
    """Such a ledger laid out across, six cells a column: at most 16,384 columns."""
    cols = range(1, count // 6 + 1)
    rows = (
        lambda col: f"2026-{col % 12 + 1:02}-{col % 28 + 1:02}",
        lambda col: "Rent",
        lambda col: str(col % 900),
        lambda col: str(col % 700),
        lambda col: f"={cell(3, col)}-{cell(4, col)}",
        lambda col: f"={cell(6, col - 1)}+{cell(5, col)}" if col > 1 else f"={cell(5, col)}",
    )
    return "".join(",".join(content(col) for col in cols) + "\n" for content in rows)


# The sheets over which the number of workers is measured, by the names that their lines have.
OF_WORKERS = {
    "chains": "700 columns of chains, 700 rows deep",
    "a recurrence": "a recurrence through two columns, 5,000 rows",
    "a ledger": "a ledger of 50,000 rows",
    "a fan": "a fan of 400,000 cells",
}
SHAPES = {"chain": chain, "fan": fan, "ledger": of_rows}


def all_cells(shape, count):
    """The range of all cells of a sheet of so many."""
    return f"A1:F{count // 6}" if shape == "ledger" else f"A1:A{count}"


def escaped(text):
    """A text as XML has it."""
    return text.replace("&", "&amp;").replace("<", "&lt;")


def ticks(values):
    """The places of an axis over these values that are named: the values themselves where they are few; else the powers of ten between
    their ends, with twice and five times these where there are hardly any."""
    values = sorted(set(values))
    if len(values) <= 5:
        return values
    least, most = extent(values)
    tens = range(math.floor(math.log10(least)), math.ceil(math.log10(most)) + 1)
    found = [10.0**it for it in tens if least <= 10.0**it <= most]
    if len(found) < 3:
        found = [step * 10.0**it for it in tens for step in (1, 2, 5) if least <= step * 10.0**it <= most]
    return found or [least, most]


def shown(number):
    """A number at an axis."""
    return f"{number:,.0f}" if number >= 1 else f"{number:g}"


def grid(left, top, size, points):
    """The lines of a panel of this size at the places of its axes that are named, with their names; and how a point is placed."""
    (width, height), drawn = size, []
    columns, rows = [point[0] for point in points], [point[1] for point in points]
    ends = extent(columns), extent(rows)
    x = lambda value: left + width * part(value, ends[0])
    y = lambda value: top + height * (1 - part(value, ends[1]))
    for tick in ticks(columns):
        drawn.append(f'<line x1="{x(tick):.1f}" y1="{top}" x2="{x(tick):.1f}" y2="{top + height}" stroke="#ddd"/>')
        drawn.append(f'<text x="{x(tick):.1f}" y="{top + height + 18}" text-anchor="middle">{shown(tick)}</text>')
    for tick in ticks(rows):
        drawn.append(f'<line x1="{left}" y1="{y(tick):.1f}" x2="{left + width}" y2="{y(tick):.1f}" stroke="#ddd"/>')
        drawn.append(f'<text x="{left - 8}" y="{y(tick) + 4:.1f}" text-anchor="end">{shown(tick)}</text>')
    drawn.append(f'<rect x="{left}" y="{top}" width="{width}" height="{height}" fill="none" stroke="#aaa"/>')
    return drawn, x, y


def curve(points, x, y, colour, width):
    """A line with a dot at each of its points."""
    path = " ".join(f"{x(a):.1f},{y(b):.1f}" for a, b in points)
    yield f'<polyline points="{path}" fill="none" stroke="{colour}" stroke-width="{width}"/>'
    yield from (f'<circle cx="{x(a):.1f}" cy="{y(b):.1f}" r="{width / 2 + 1.5}" fill="{colour}"/>' for a, b in points)


def chart(name, where, title, across, up, panels):
    """Draws panels of lines over the same two logarithmic axes: for each panel its lines by name, at most four, each with its points.
    Below is where it was measured."""
    points = [point for series in panels.values() for line in series.values() for point in line]
    if not points:
        return
    beside = {4: 2}.get(len(panels), len(panels))
    size = PANELS[beside]
    width = LEFT + beside * (size[0] + ACROSS) - ACROSS + RIGHT
    height = TOP + math.ceil(len(panels) / beside) * (size[1] + DOWN) - DOWN + BOTTOM
    drawn, names = [f'<text x="{LEFT}" y="24" font-size="16">{escaped(title)}</text>'], []
    for place, (panel, series) in enumerate(panels.items()):
        left, top = LEFT + place % beside * (size[0] + ACROSS), TOP + place // beside * (size[1] + DOWN)
        lines_of_grid, x, y = grid(left, top, size, points)
        drawn += [*lines_of_grid, f'<text x="{left}" y="{top - 8}" font-weight="bold">{escaped(panel)}</text>']
        for what, line in series.items():
            names += [] if what in names else [what]
            drawn += curve(line, x, y, *COLOURS[names.index(what)])
    for place, what in enumerate(names):
        colour, thick = COLOURS[place]
        x, y = width - RIGHT + 14, TOP + 16 + 20 * place
        drawn.append(f'<line x1="{x}" y1="{y - 4}" x2="{x + 20}" y2="{y - 4}" stroke="{colour}" stroke-width="{thick}"/>')
        drawn.append(f'<text x="{x + 28}" y="{y}">{escaped(what)}</text>')
    middle = (TOP + height - BOTTOM) // 2
    drawn.append(f'<text x="{(LEFT + width - RIGHT) // 2}" y="{height - 30}" text-anchor="middle">{escaped(across)}</text>')
    drawn.append(f'<text x="18" y="{middle}" text-anchor="middle" transform="rotate(-90 18 {middle})">{escaped(up)}</text>')
    drawn.append(f'<text x="{LEFT}" y="{height - 8}" fill="#666" font-size="10">{escaped(where)}</text>')
    box = f'<svg xmlns="http://www.w3.org/2000/svg" width="{width}" height="{height}" font-family="sans-serif" font-size="12">'
    FIGURES.mkdir(exist_ok=True)
    (FIGURES / f"{name}.svg").write_text("\n".join([box, '<rect width="100%" height="100%" fill="white"/>', *drawn, "</svg>"]) + "\n")
    print(f"docs/figures/{name}.svg")


def extent(values):
    """The least and the most of some numbers above 0."""
    values = list(values)
    return min(values), max(values)


def part(value, ends):
    """How far a number is from one end of an axis to the other one, by logarithms."""
    return math.log(value / ends[0]) / math.log(ends[1] / ends[0]) if ends[1] > ends[0] else 0.5


def commands(folder, runs, where):
    """The times of three commands over three shapes of sheet."""
    panels = {}
    for shape, text in SHAPES.items():
        series = panels.setdefault(f"a {shape}", {})
        for count in SIZES:
            (folder / "sheet.csv").write_text(text(count))
            asked = {
                "show": ("show", "sheet.csv", all_cells(shape, count)),
                "deps": ("deps", "sheet.csv", "A1"),
                "check": ("check", "sheet.csv"),
            }
            taken = {what: [] for what in asked}
            for _ in range(runs):
                for what, words in asked.items():
                    taken[what].append(started(folder, *words)[0])
            for what, times in taken.items():
                series.setdefault(what, []).append((count, max(min(times), 1e-4)))
                print(f"{min(times):9.4f} s  {what} of a {shape} of {count:,} cells", flush=True)
    chart("commands", where, "What commands take", "cells of the sheet", "seconds of processor time", panels)


def peers(folder, runs, where):
    """The time by the clock of a ledger beside other programs, each of which reads it and computes its values."""
    found, series = others(), {}
    for count in SIZES:
        (folder / "sheet.csv").write_text(of_rows(count))
        taken = {"antifreeze": [], **{name: [] for name in found}}
        for _ in range(runs):
            taken["antifreeze"].append(started(folder, "show", "sheet.csv", all_cells("ledger", count))[1])
            for name, words in found.items():
                status, _, clock, _ = told(STARTER, folder, *words)
                if status:
                    sys.exit(f"bench/figures.py: {name} ended with status {status}")
                taken[name].append(clock)
        for name, times in taken.items():
            series.setdefault(name, []).append((count, min(times)))
            print(f"{min(times):9.4f} s  {name}, a ledger of {count:,} cells", flush=True)
    chart("peers", where, "A ledger read and computed", "cells of the sheet", "seconds by the clock", {"": series})


def edges(folder, _, where):
    """How many edges stand for how many pairs."""
    panels = {}
    for shape, text in (SHAPES | {"ledger across": laid_across}).items():
        series = panels.setdefault(f"a {shape}", {})
        for count in SIZES:
            if shape == "ledger across":
                count = min(count, 6 * 16_384)
            (folder / "sheet.csv").write_text(text(count))
            started(folder, "check", "sheet.csv")
            with open(folder / "output") as output:
                found = [int(output.readline().split()[1]) for _ in range(2)]
            for what, number in zip(("pairs", "edges"), found):
                series.setdefault(what, []).append((count, number))
            print(f"{found[1]:9,} edges for {found[0]:,} pairs: a {shape} of {count:,} cells", flush=True)
    chart("edges", where, "Edges that stand for pairs", "cells of the sheet", "how many", panels)


def workers(folder, runs, where):
    """The time by the clock of an edit and a firm look, over the number of workers and four of the sheets of bench/responsive.py."""
    counts, series = (1, 2, 4, 8, 16), {}
    for name, what in OF_WORKERS.items():
        responsive.write(folder, responsive.SHEETS[what]())
        taken = {count: [] for count in counts}
        for _ in range(runs):
            for count in counts:
                taken[count].append(started(folder, "live", "sheet.csv", "script.txt", "--workers", str(count))[1])
        for count in counts:
            print(f"{min(taken[count]):9.4f} s  live with {count} workers, {what}", flush=True)
        series[name] = [(count, min(taken[count])) for count in counts]
    chart("workers", where, "An edit and a firm look", "workers", "seconds by the clock", {"": series})


def main():
    runs, name = called_with(__doc__, 3)
    build()
    # (the load is asked for once, before the first run: later it would be mostly that of the runs themselves)
    where = machine()
    print(f"{where}, least of {runs} runs each")
    for figure in (commands, peers, edges, workers):
        if name in figure.__name__:
            with tempfile.TemporaryDirectory(prefix="antifreeze-figures-") as folder:
                figure(pathlib.Path(folder), runs, where)


if __name__ == "__main__":
    main()
