"""Judges what `live` wrote, by the plain rules of a live run: for sheets of whole numbers and of sums of cells.

Usage: judge_live.py SHEET SCRIPT < OUTPUT. It prints what is wrong, and ends with 1, where the output is none that
the script may have over the sheet; else it prints nothing.
"""

import csv
import re
import sys

CELL = re.compile(r"([A-Z]+)([0-9]+)")


def place(name):
    """A cell's name as row and column, counted from 0."""
    letters, digits = CELL.fullmatch(name.upper()).groups()
    col = 0
    for letter in letters:
        col = col * 26 + ord(letter) - 64
    return int(digits) - 1, col - 1


def cells_of(window):
    """The cells of a range, as a list for each row."""
    first, _, second = window.partition(":")
    (top, left), (bottom, right) = place(first), place(second or first)
    top, bottom, left, right = min(top, bottom), max(top, bottom), min(left, right), max(left, right)
    return [[(row, col) for col in range(left, right + 1)] for row in range(top, bottom + 1)]


def items(content):
    """The numbers and cells that a formula adds."""
    return [it.strip() for it in content[1:].split("+")]


def inputs(content):
    """The cells that a content names."""
    return [place(it) for it in items(content) if not it.lstrip("-").isdigit()] if content.startswith("=") else []


def values_of(contents):
    """The values by one thread, as text, of all cells that hold something. A formula whose cells never all have a value
    leads into a cycle."""
    found = {cell: content for cell, content in contents.items() if not content.startswith("=")}
    left = {cell: inputs(content) for cell, content in contents.items() if cell not in found}
    while ready := [cell for cell, needs in left.items() if not any(it in left for it in needs)]:
        for cell in ready:
            del left[cell]
            of = lambda it: int(it) if it.lstrip("-").isdigit() else int(found.get(place(it)) or 0)
            found[cell] = str(sum(of(it) for it in items(contents[cell])))
    return {**found, **{cell: "#CIRC!" for cell in left}}


def touched(contents, changes):
    """The cells that an edit changes, and all that depend on one of them."""
    reached, more = set(), [cell for cell, _ in changes]
    while more:
        cell = more.pop()
        if cell not in reached:
            reached.add(cell)
            more += [it for it, content in contents.items() if cell in inputs(content)]
    return reached


def read_sheet(text):
    """The contents of a sheet, and its sizes."""
    rows = [row for row in csv.reader(text.splitlines())]
    width = max((len(it) for it in rows), default=0)
    return {(r, c): field for r, row in enumerate(rows) for c, field in enumerate(row) if field}, (len(rows), width)


def change_of(line):
    """The change that a line of a script or a log makes."""
    word, cell, *content = line.split(" ", 2)
    return place(cell), (content[0] if word == "set" and content else "").upper().replace(" ", "")


def read_script(text):
    """The clients by name, in order, each with its commands."""
    clients, name, batch = {}, "main", None
    for line in text.splitlines():
        word = line.partition(" ")[0]
        if not line or line.startswith("#"):
            continue
        if word == "client":
            name = line[7:]
            clients.setdefault(name, [])
        elif word == "batch":
            batch = []
        elif word == "end":
            clients.setdefault(name, []).append(("edit", batch))
            batch = None
        elif word in ("look", "firm"):
            clients.setdefault(name, []).append((word, cells_of(line[5:])))
        elif batch is not None:
            batch.append(change_of(line))
        else:
            clients.setdefault(name, []).append(("edit", [change_of(line)]))
    return clients


class Output:
    """The lines of an output, taken one by one."""

    def __init__(self, text):
        self.lines = text.split("\n")

    def next(self):
        return self.lines.pop(0)

    def rows(self, window):
        return [cell for row in window for cell in zip(row, self.next().split(","), strict=True)]


def read_log(output):
    """The entries of the log: the name of the client and the changes of each."""
    log = []
    for number in range(1, int(output.next().removeprefix("log ")) + 1):
        head, name, change = output.next().split(" ", 2)
        assert int(head) == number, "entries out of order"
        many = int(change.split(" ")[1]) if change.startswith("batch ") else 0
        log.append((name, [change_of(output.next()) for _ in range(many)] if many else [change_of(change)]))
    return log


def read_reports(output, names):
    """The reports of each client: kind, number, window and what is shown of each cell."""
    reports = {}
    for name in names:
        assert output.next() == f"client {name}", "clients out of order"
        reports[name] = []
        while output.lines[0].startswith(("look ", "firm ")):
            kind, number, window = output.next().split(" ")
            reports[name].append((kind, int(number), cells_of(window), output.rows(cells_of(window))))
    return reports


def judge(sheet, script, text):
    opening, (height, width) = read_sheet(sheet)
    clients = read_script(script)
    output = Output(text)
    log = read_log(output)
    reports = read_reports(output, clients)

    # The values after each number of entries, and what each entry touches.
    contents, touches, after = opening, [set()], [values_of(opening)]
    for _, changes in log:
        touches.append(touched(contents, changes))
        contents = {**contents, **dict(changes)}
        after.append(values_of(contents))

    def last_touch(cell, number):
        return max((n for n in range(1, number + 1) if cell in touches[n]), default=0)

    for name, commands in clients.items():
        own = [n for n, (client, _) in enumerate(log, 1) if client == name]
        edits = [what for kind, what in commands if kind == "edit"]
        assert [log[n - 1][1] for n in own] == edits, f"{name}: not its edits, in order"
        looks = [(kind, what) for kind, what in commands if kind != "edit"]
        assert [(kind, window) for kind, _, window, _ in reports[name]] == looks, f"{name}: not its looks, in order"
        made, before, values = 0, 0, {}
        told = iter(reports[name])
        for kind, what in commands:
            if kind == "edit":
                made += 1
                continue
            _, number, _, shown = next(told)
            assert number <= len(log) and before <= number, f"{name}: number {number}"
            assert all(n <= number for n in own[:made]) and all(n > number for n in own[made:]), f"{name}: number {number}"
            for cell, text in shown:
                mark = int(text[1:]) if text[:1] in ("~", "^") else None
                if mark is None:
                    assert text == after[number].get(cell, ""), f"{name}: {cell} at {number} shows {text}"
                    values[cell] = number
                    continue
                assert kind == "look", f"{name}: a mark in a firm look"
                later = number < mark <= len(log) and cell in touches[mark]
                last = text[0] == "~" and mark <= number and mark == last_touch(cell, number)
                assert later or last and (mark or opening.get(cell, "").startswith("=")), f"{name}: {cell} at {number} shows {text}"
                assert mark > values.get(cell, -1), f"{name}: {cell} goes back to {text}"
            before = number
    assert {client for client, _ in log} <= set(clients), "an entry of somebody else"
    assert output.next() == f"sheet {len(log)} A1:{chr(64 + width)}{height}", "the closing sheet's line"
    whole = [[(row, col) for col in range(width)] for row in range(height)]
    assert all(text == after[-1].get(cell, "") for cell, text in output.rows(whole)), "a closing value"
    assert output.lines == [""], "more lines"


def main():
    sheet, script = (open(it, newline="").read() for it in sys.argv[1:3])
    try:
        judge(sheet, script, sys.stdin.read())
    except (AssertionError, ValueError, IndexError) as why:
        print(f"no legal run: {why}")
        return 1
    return 0


if __name__ == "__main__":
    sys.exit(main())
