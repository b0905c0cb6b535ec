#!/usr/bin/env python3
"""Runs .ci/run and measures the processor time that its proofs take: for each crate the library, its tests, and its stored wrong
programs with the checks that they begin with.

It looks at the prover's processes once in half a second, so that each of them is told by up to half a second too little; the sum
of all processes that the run has started stands below the table, and is exact. Nothing is measured but processor time, so other
work on the machine changes little.

Usage: bench/gate.py [--log FILE]. What .ci/run prints goes to the file, gate.log where none is given; the status is that of .ci/run.
"""

import argparse
import collections
import os
import pathlib
import re
import resource
import subprocess
import sys
import threading
import time

from measuring import ROOT, machine

SECONDS = 0.5
TICKS = os.sysconf("SC_CLK_TCK")
KINDS = ("library", "tests", "wrong programs")


def processes():
    """For each process of the machine what the kernel tells of it, from its state on."""
    found = {}
    for stat in pathlib.Path("/proc").glob("[0-9]*/stat"):
        try:
            _, _, rest = stat.read_text().rpartition(") ")
        except OSError:
            continue
        found[int(stat.parent.name)] = rest.split()
    return found


def descends(pid, found, root):
    """Whether a process was started by the root, or by one that was."""
    while pid in found and pid != root:
        pid = int(found[pid][1])
    return pid == root


def work_of(pid):
    """The crate and the kind of work of a process of the prover; None for any other."""
    try:
        words = pathlib.Path(f"/proc/{pid}/cmdline").read_bytes().decode(errors="replace").split("\0")
        folder = os.readlink(f"/proc/{pid}/cwd")
    except OSError:
        return None
    if "--crate-name" not in words or os.path.basename(words[0]) != "rattle":
        return None
    name = words[words.index("--crate-name") + 1]
    if "rt-edit-" in folder:
        return name, KINDS[2]
    return name, KINDS[1 if "--test" in words else 0]


def watch(root, used, stop):
    """Notes for each process of the prover below the root how much processor time it has taken by now."""
    while not stop.wait(SECONDS):
        found = processes()
        for pid, rest in found.items():
            if descends(pid, found, root) and (work := work_of(pid)):
                used[pid, rest[19]] = work, (int(rest[11]) + int(rest[12])) / TICKS


def main():
    parser = argparse.ArgumentParser(description="Measures the processor time of .ci/run, crate by crate.")
    parser.add_argument("--log", default="gate.log", metavar="FILE", help="where what it prints goes (gate.log)")
    given = parser.parse_args()
    print(machine(), flush=True)
    used, stop, begun = {}, threading.Event(), time.monotonic()
    with open(given.log, "wb") as log:
        ran = subprocess.Popen([ROOT / ".ci" / "run"], cwd=ROOT, stdin=subprocess.DEVNULL, stdout=log, stderr=subprocess.STDOUT)
        watcher = threading.Thread(target=watch, args=(ran.pid, used, stop))
        watcher.start()
        status = ran.wait()
        stop.set()
        watcher.join()
    table = collections.defaultdict(collections.Counter)
    for (name, kind), seconds in used.values():
        table[name][kind] += seconds
    names = re.findall(r"(?m)^([a-z0-9_]+)[^:\n]*:", (ROOT / "crates.txt").read_text())
    print("crate", *KINDS, sep="\t")
    for name in names:
        print(name, *(f"{table[name][kind]:.0f}" for kind in KINDS), sep="\t")
    print("all", *(f"{sum(it[kind] for it in table.values()):.0f}" for kind in KINDS), sep="\t")
    total = resource.getrusage(resource.RUSAGE_CHILDREN)
    print(f"status {status}; {total.ru_utime + total.ru_stime:.0f} s of processor time in all, {time.monotonic() - begun:.0f} s by the clock")
    return status


if __name__ == "__main__":
    sys.exit(main())
