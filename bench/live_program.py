"""The program of bench/live, which times the calls of a live sheet, proved and built, and its runs."""

import functools
import subprocess
import sys
import tempfile

import proved
from measuring import ROOT, STARTER, told

LIBRARIES = "sheet_refs value_core formula_syntax sheet_model csv_sheet graph_walk taco_graph mark_core mark_words recalc_workers edit_log live_sheet".split()


@functools.cache
def program():
    """The program, proved and built."""
    return proved.program("live_bench", ROOT / "bench" / "live", LIBRARIES, ["settling", "chain", "10", "2", "0"])


def words(what, shape, rows, desks=1, calls=0):
    """The words of one run."""
    return [program(), what, shape, str(rows), str(desks), str(calls)]


def built():
    """A function that runs the program and gives the nanoseconds that it prints."""
    program()

    def timed(*asked, **more):
        ran = subprocess.run(words(*asked, **more), stdout=subprocess.PIPE, text=True)
        if ran.returncode:
            sys.exit(f"bench: live_bench ended with status {ran.returncode} at {asked}")
        return int(ran.stdout)

    return timed


def peak(*asked):
    """The most memory, in bytes, that was resident in one run."""
    with tempfile.TemporaryDirectory() as folder:
        return told(STARTER, folder, *words(*asked))[3]
