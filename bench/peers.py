#!/usr/bin/env python3
"""Times `show` of all cells beside the spreadsheet programs that are installed, each of which reads the same CSV file and computes all
its values: ssconvert of Gnumeric and LibreOffice, which write them as CSV too, and a small program over libixion, which writes none.

Run by hand: bench/peers.py [--program FILE] [RUNS] [WORD]. A line for each sheet whose name contains WORD (all by default), with the least of RUNS
runs each (3 by default), the programs in turn:

    seconds   the time by the clock, for each program
    MB        the most memory that was resident, for each program
    times     the time of the best of the others, divided by that of `show`

In front stand the machine, its load before the first run, and which version of each program was found. The program over libixion is
compiled from bench/peers/ixion.cpp where its headers are installed (Debian's libixion-dev). A program that isn't installed, or
doesn't end with 0 within ten minutes, is left out with a word.
"""

import pathlib
import shutil
import subprocess
import tempfile

from measuring import ROOT, STARTER, build, called_with, chain, head, ledger, lines, started, told

IXION = pathlib.Path(tempfile.gettempdir()) / "antifreeze-ixion_bench"
MINUTES = 10
# What prints the version of each of the other programs.
VERSIONS = {
    "ssconvert": ("ssconvert", "--version"),
    "LibreOffice": ("soffice", "--version"),
    "libixion": ("pkg-config", "--modversion", "libixion-0.17"),
}


def sums(count):
    """A column of so many numbers, and beside each the sum of it and all above it."""
    return lines(count, lambda row: f"{row},=SUM(A$1:A{row})")


def windows(count):
    """A column of numbers, and beside each the sum of it and the nine below it."""
    return lines(count, lambda row: f"{row},=SUM(A{row}:A{row + 9})")


# The sheets: what they are, their text, and the range of all their cells.
SHEETS = {
    "a chain of 100,000 cells": (lambda: chain(100_000), "A1:A100000"),
    "5,000 growing sums": (lambda: sums(5_000), "A1:B5000"),
    "100,000 windows of ten": (lambda: windows(100_000), "A1:B100000"),
    "a fan of 100,000 cells": (lambda: lines(100_000, lambda row: "=$A$1*2" if row > 1 else "1"), "A1:A100000"),
    "a fan of 1,000,000 cells": (lambda: lines(1_000_000, lambda row: "=$A$1*2" if row > 1 else "1"), "A1:A1000000"),
    "500,000 rows of two columns": (lambda: lines(500_000, lambda row: f"{row},=A{row}+1"), "A1:B500000"),
    "a ledger of 50,000 rows": (lambda: lines(50_000, ledger), "A1:F50000"),
}


def others():
    """The words by which each other program that is there reads sheet.csv."""
    source = ROOT / "bench" / "peers" / "ixion.cpp"
    flags = subprocess.run(["pkg-config", "--cflags", "--libs", "libixion-0.17"], capture_output=True, text=True)
    if not flags.returncode:
        subprocess.run(["c++", "-std=c++17", "-O2", "-o", IXION, source, *flags.stdout.split()], check=True)
    words = {
        "ssconvert": ("ssconvert", "sheet.csv", "other.csv"),
        "LibreOffice": ("soffice", "--headless", "--convert-to", "csv", "--outdir", "converted", "sheet.csv"),
        "libixion": (str(IXION), "sheet.csv"),
    }
    found = {what: it for what, it in words.items() if shutil.which(it[0])}
    for what in words.keys() - found.keys():
        print(f"{what} isn't installed, and is left out")
    return found


def version(what):
    """The version of another program, as its own words say it, in one line."""
    try:
        ran = subprocess.run(VERSIONS[what], stdin=subprocess.DEVNULL, capture_output=True, text=True, timeout=60 * MINUTES)
    except (OSError, subprocess.TimeoutExpired):
        return "not told"
    said = (ran.stdout + ran.stderr).strip().split("\n")[0]
    return said if said and not ran.returncode else "not told"


def taken(folder, words):
    """Time by the clock and peak of memory of one run of another program; None where it fails."""
    status, _, clock, peak = told(STARTER, folder, "sh", "-c", f'exec timeout {60 * MINUTES} "$@" 2> /dev/null', "sh", *words)
    return (clock, peak) if not status else None


def measure(folder, sheet, cells, found, runs):
    """The least time and the peak of each program that could do it, over one sheet."""
    (folder / "sheet.csv").write_text(sheet)
    best, failed = {}, set()
    for _ in range(runs):
        best.setdefault("show", []).append(started(folder, "show", "sheet.csv", cells)[1:])
        for what, words in found.items():
            one = None if what in failed else taken(folder, words)
            failed |= {what} if one is None else set()
            best.setdefault(what, []).append(one)
    return {what: None if None in runs else (min(it[0] for it in runs), max(it[1] for it in runs)) for what, runs in best.items()}


def line(what, best):
    """Prints the times and peaks of one sheet, and what the best of the others takes beside show."""
    shown = "  ".join(f"{clock:8.3f} {peak / 1e6:7.0f}" if (clock, peak) != (0, 0) else f"{'-':>8} {'-':>7}" for clock, peak in (it or (0, 0) for it in best.values()))
    rest = [it[0] for peer, it in best.items() if it and peer != "show"]
    times = f"{min(rest) / best['show'][0]:7.1f}" if rest else f"{'-':>7}"
    print(f"{shown}  {times}  {what}", flush=True)


def main():
    runs, word = called_with(__doc__, 3)
    build()
    head(runs)
    found = others()
    for what in found:
        print(f"{what}: {version(what)}")
    print("  ".join(f"{what[:11]:>11} s   MB" for what in ("show", *found)) + "    times")
    for what, (text, cells) in SHEETS.items():
        if word in what:
            with tempfile.TemporaryDirectory(prefix="antifreeze-peers-") as folder:
                line(what, measure(pathlib.Path(folder), text(), cells, found, runs))


if __name__ == "__main__":
    main()
