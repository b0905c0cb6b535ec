"""What the scripts of bench/ share: sheets of several shapes, how the built program is started, timed and judged, what they are
called with, and what a table says of the machine. They are run by hand, and import it from their own folder.
"""

import argparse
import datetime
import importlib.machinery
import importlib.util
import json
import os
import pathlib
import subprocess
import sys

ROOT = pathlib.Path(__file__).resolve().parent.parent
BUILT = ROOT / "crates" / "antifreeze" / "out" / "antifreeze"
# The program that is measured: the built one, unless the words that a script is called with name another.
PROGRAM = BUILT
LETTERS = "ABCDEFGHIJKLMNOPQRSTUVWXYZ"

# The program is started by a small process of its own: what a process had resident before it turned into the program counts as
# the program's, so it must not come from one that holds the texts. What is told: the status, the processor time, the time by the
# clock, and the most memory that was resident.
STARTER = """
import json, os, sys, time
start = time.monotonic()
pid = os.fork()
if not pid:
    os.dup2(os.open("output", os.O_WRONLY | os.O_CREAT | os.O_TRUNC, 0o644), 1)
    os.execvp(sys.argv[1], sys.argv[1:])
_, status, used = os.wait4(pid, 0)
clock = time.monotonic() - start
print(json.dumps([os.waitstatus_to_exitcode(status), used.ru_utime + used.ru_stime, clock, used.ru_maxrss * 1024]))
"""


def name(row, col):
    """The name of a cell, by its row and its column from 1."""
    letters = ""
    while col:
        col, digit = divmod(col - 1, 26)
        letters = LETTERS[digit] + letters
    return f"{letters}{row}"


def lines(count, line):
    """A text of so many lines, from a function that gives each by its number from 1."""
    return "".join(f"{line(number)}\n" for number in range(1, count + 1))


def grid(content):
    """A text of 1,024 rows and 64 columns, from a function that gives each cell's content."""
    return lines(1_024, lambda row: ",".join(content(row, col) for col in range(1, 65)))


def ledger(row):
    """One booking: day, kind, what was planned and spent, the rest, and the balance so far."""
    balance = f"=E{row}" if row == 1 else f"=F{row - 1}+E{row}"
    return f'2026-{row % 12 + 1:02}-{row % 28 + 1:02},"Rent, flat",{row % 900},{row % 700},=C{row}-D{row},{balance}'


def chain(count):
    """Each cell of a column refers to the one above it."""
    return lines(count, lambda r: f"=A{r - 1}+1" if r > 1 else "1")


def with_total(text):
    """The sheet with one more row, and the cell there, which adds up all cells above it: to show that one computes them all, but where
    they lead into circles."""
    rows = text.count("\n")
    return f"{text}=SUM(A1:XFD{rows})\n", f"A{rows + 1}"


def sums(row, col):
    """The first row and column are numbers; each other cell adds the heads of its row and its column."""
    return f"={name(1, col)}+{name(row, 1)}+1" if row > 1 and col > 1 else str(row + col)


def one_hash(count):
    """So many texts of 32 bytes, of which no two are alike and all have one hash, as they are filed in a table of labels: with what
    is behind the first sixteen bytes, the hash multiplies the last eight by 0, whatever they are. The first sixteen are tried."""
    word = 2**64 - 1

    def behind(front):
        low, high = (int.from_bytes(front[at:at + 8], "little") for at in (0, 8))
        product = (low ^ (0x243F_6A88_85A3_08D3 + 32)) * (high ^ 0x9E37_79B9_7F4A_7C15)
        return (product & word ^ product >> 64).to_bytes(8, "little")

    number = next(it for it in range(10**11) if all(48 <= byte < 123 for byte in behind(b"label%011d" % it)))
    front = b"label%011d" % number
    return (f"{(front + behind(front)).decode()}{it:08}" for it in range(count))


def script():
    """The name of the script that runs, for what it says."""
    return f"bench/{pathlib.Path(sys.argv[0]).name}"


def told(code, folder, *words):
    """What a Python program of its own process prints."""
    ran = subprocess.run([sys.executable, "-S", "-E", "-c", code, *words], cwd=folder, stdin=subprocess.DEVNULL, stdout=subprocess.PIPE)
    if ran.returncode:
        sys.exit(f"{script()}: a measuring process failed")
    return json.loads(ran.stdout)


def started(folder, *words):
    """Processor time, time by the clock and peak of memory of one run of the program, which has to end with 0."""
    status, processor, clock, peak = told(STARTER, folder, PROGRAM, *words)
    if status:
        sys.exit(f"{script()}: {' '.join(words)} ended with status {status}")
    return processor, clock, peak


def build():
    """Has the launcher build what isn't built, where no other program was named."""
    if PROGRAM != BUILT:
        return
    shown = subprocess.run([ROOT / "antifreeze", "show", ROOT / "examples" / "first.csv", "A1:B2"], stdout=subprocess.DEVNULL)
    if shown.returncode:
        sys.exit(f"{script()}: the program could not be built")


def judge():
    """The module that judges live runs, which stands with the cases of the command line."""
    loader = importlib.machinery.SourceFileLoader("judge", str(ROOT / "tests" / "cli" / "judge_live.py"))
    module = importlib.util.module_from_spec(importlib.util.spec_from_loader("judge", loader))
    loader.exec_module(module)
    return module


def called_with(text, runs, of_program=True):
    """What a script is called with: how often it runs what it measures, and a word that the names of what it measures contain. Where it
    starts the program, another one may be named, which is measured then."""
    global PROGRAM
    parser = argparse.ArgumentParser(description=text, formatter_class=argparse.RawDescriptionHelpFormatter)
    parser.add_argument("runs", nargs="?", type=int, default=runs, metavar="RUNS", help=f"how many runs each ({runs})")
    parser.add_argument("word", nargs="?", default="", metavar="WORD", help="what has this in its name alone (all)")
    if of_program:
        parser.add_argument("--program", metavar="FILE", type=pathlib.Path, help="measure this program in place of the launcher's")
    given = parser.parse_args()
    if of_program and given.program:
        PROGRAM = given.program.resolve()
    return given.runs, given.word


def machine():
    """The kind of machine, its processors, its load and the day."""
    kinds = [line.partition(":")[2].strip() for line in open("/proc/cpuinfo") if line.startswith("model name")]
    kind = kinds[0] if kinds else "unknown machine"
    return f"{kind}, {len(os.sched_getaffinity(0))} processors, load {os.getloadavg()[0]:.1f}, {datetime.date.today()}"


def head(runs, how="least of {runs} runs each"):
    """The first line of a table."""
    print(f"{machine()}, {how.format(runs=runs)}")
