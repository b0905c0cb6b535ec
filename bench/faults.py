#!/usr/bin/env python3
"""Refuses the allocations of the built program one after the other, and looks at how each run ends.

Run by hand: bench/faults.py [--most N] [--program FILE] [WORD]. For each command whose name contains WORD (all by
default) the program first runs as it is, while its allocations are counted, those of all threads together. Then it runs
once for each of them, and that one is refused, as if there were no memory. Such a run has to end with status 0 and the
whole text, or with 7, no byte of output and the one line that says so. What `live` writes turns on the threads, so it is
judged by the rules of a live run (tests/cli/judge_live.py) where it isn't always the same.

Where there are more allocations than N (4,000 by default), so many of them are refused, spread over all. A line for each
command: how many allocations a run makes, in how many runs one was refused, and how many of these ended with 7 and how
many with 0. In a run with several workers an allocation may not come, and nothing is refused then. The status is 1 where
a run ended otherwise.

The allocations are counted and refused by a few lines of C that the loader puts before the C library's own; `cc`
compiles them anew each time. Refused is what `malloc` and its like are asked for, not the stacks of threads.
"""

import argparse
import mmap
import os
import pathlib
import struct
import subprocess
import sys
import tempfile

from measuring import PROGRAM, ROOT, build, judge

SECONDS = 60
NO_MEMORY = b"antifreeze: out of memory\n"

JUDGE = judge()

# Two numbers in a file that is shared: how many allocations there were, and how many of them were refused.
SHIM = r"""
#include <errno.h>
#include <fcntl.h>
#include <stdatomic.h>
#include <stddef.h>
#include <stdlib.h>
#include <sys/mman.h>
#include <unistd.h>

void *__libc_malloc(size_t);
void *__libc_calloc(size_t, size_t);
void *__libc_realloc(void *, size_t);
void *__libc_memalign(size_t, size_t);

static _Atomic long *shared;
static long refused_one;

__attribute__((constructor)) static void begin(void) {
    const char *path = getenv("FAULTS_FILE"), *number = getenv("FAULTS_AT");
    int file = path ? open(path, O_RDWR | O_CLOEXEC) : -1;
    if (file < 0 || !number) _exit(99);
    refused_one = atol(number);
    void *at = mmap(NULL, 2 * sizeof(long), PROT_READ | PROT_WRITE, MAP_SHARED, file, 0);
    if (at == MAP_FAILED) _exit(99);
    close(file);
    shared = at;
}

static int refuses(void) {
    if (!shared || atomic_fetch_add(&shared[0], 1) + 1 != refused_one) return 0;
    atomic_fetch_add(&shared[1], 1);
    errno = ENOMEM;
    return 1;
}

void *malloc(size_t size) { return refuses() ? NULL : __libc_malloc(size); }
void *calloc(size_t many, size_t size) { return refuses() ? NULL : __libc_calloc(many, size); }
void *realloc(void *old, size_t size) { return refuses() ? NULL : __libc_realloc(old, size); }
void *memalign(size_t align, size_t size) { return refuses() ? NULL : __libc_memalign(align, size); }
void *aligned_alloc(size_t align, size_t size) { return refuses() ? NULL : __libc_memalign(align, size); }
int posix_memalign(void **to, size_t align, size_t size) {
    void *at = refuses() ? NULL : __libc_memalign(align, size);
    if (!at) return ENOMEM;
    *to = at;
    return 0;
}
"""

WORKED = "1,=A1+1\n2,=A2+B1\n"
TOTALS = "".join(f"{row},=SUM($A$1:A{row})\n" for row in range(1, 1_001))
HOUSEHOLD = (ROOT / "examples" / "household.csv").read_text()
STORED = "client ann\nset A1 5\nset A2 =a1 * 2\nfirm A1:B2\n"
TWO = "client ann\nset A1 5\nlook A1:B2\nfirm A1:B2\nclient bob\nset A2 7\nlook B1:B2\nfirm A1:B2\n"
MANY = "".join(f"client c{at % 4}\nset A{at % 2 + 1} {at}\nlook A1:B2\n" for at in range(40)) + "firm A1:B2\n"
BATCH = "batch\nset C3 470\nset B4 200\nend\nset C4 =B4\n"

# The name of a command, its words, its sheet, its script, and whether what it writes turns on the threads.
COMMANDS = [
    ("show of a household", "show s A1:D5", HOUSEHOLD, "", False),
    ("deps of a household", "deps s C3", HOUSEHOLD, "", False),
    ("precs of a household", "precs s D5", HOUSEHOLD, "", False),
    ("path in a household", "path s B2 D5", HOUSEHOLD, "", False),
    ("check of 1,000 totals", "check s", TOTALS, "", False),
    ("deps in 1,000 totals", "deps s A500:A500", TOTALS, "", False),
    ("play of two formulas", "play s t", WORKED, "set A1 5\nlook A1:B2\nwork 2\nlook A1:B2\n", False),
    ("undo of a batch", "undo s t 1", HOUSEHOLD, BATCH, False),
    ("fill of a sum in a household", "fill s D2 D2:D5", HOUSEHOLD, "", False),
    ("fill of a growing sum", "fill s B1 B1:B100", TOTALS, "", False),
    ("live of one client, 1 worker", "live s t --workers 1", WORKED, STORED, False),
    ("live of one client, 4 workers", "live s t --workers 4", WORKED, STORED, False),
    ("live of two clients, 1 worker", "live s t --workers 1", WORKED, TWO, True),
    ("live of two clients, 4 workers", "live s t --workers 4", WORKED, TWO, True),
    ("live of four clients, 4 workers", "live s t --workers 4", WORKED, MANY, True),
    ("gen, 1 worker", "gen 1 --workers 1", "", "", False),
    ("gen, 4 workers", "gen 1 --workers 4", "", "", False),
]


class Run:
    """How a run ended, with one of its allocations refused, or none."""

    def __init__(self, program, room, words, at):
        counts = room / "counts"
        counts.write_bytes(bytes(mmap.PAGESIZE))
        env = {"LD_PRELOAD": str(room / "shim.so"), "FAULTS_FILE": str(counts), "FAULTS_AT": str(at)}
        ran = subprocess.run([program, *words], cwd=room, env=env, capture_output=True, timeout=SECONDS)
        self.status, self.out, self.notes = ran.returncode, ran.stdout, ran.stderr
        self.allocations, self.refused = struct.unpack("ll", counts.read_bytes()[:16])


def is_legal(sheet, script, out):
    """Whether `live` may write this."""
    try:
        JUDGE.judge(sheet, script, out.decode())
    except (AssertionError, ValueError, IndexError):
        return False
    return True


def refused_in_turn(program, room, command, most):
    """Runs a command with one allocation after the other refused; gives what to say, and what was wrong."""
    name, words, sheet, script, turns = command
    (room / "s").write_text(sheet)
    (room / "t").write_text(script)
    whole = Run(program, room, words.split(), 0)
    if whole.status or turns and not is_legal(sheet, script, whole.out):
        return name, [f"without a refusal it ends with status {whole.status}"]
    steps = max(1, -(-whole.allocations // most))
    ended, wrong = {0: 0, 7: 0}, []
    for at in range(1, whole.allocations + 1, steps):
        run = Run(program, room, words.split(), at)
        kept = is_legal(sheet, script, run.out) if turns else run.out == whole.out
        done = run.status == 0 and kept and not run.notes
        none = run.status == 7 and not run.out and run.notes == NO_MEMORY and run.refused
        if not (done or none):
            wrong.append(f"allocation {at}: status {run.status}, {len(run.out)} bytes, notes {run.notes[:100]}")
        elif run.refused:
            ended[run.status] += 1
    refused = sum(ended.values())
    said = f"{whole.allocations} allocations, {refused} refused: {ended[7]} ended with 7, {ended[0]} with 0"
    return f"{name}: {said}", wrong


def main():
    parser = argparse.ArgumentParser(description="Refuses the allocations of the built program one after the other.")
    parser.add_argument("word", nargs="?", default="", metavar="WORD", help="the commands whose name contains it alone")
    parser.add_argument("--most", type=int, default=4_000, metavar="N", help="refuse so many for a command at most (4000)")
    parser.add_argument("--program", metavar="FILE", help="run this program in place of the launcher's")
    given = parser.parse_args()
    if not given.program:
        build()
    program = os.path.abspath(given.program) if given.program else PROGRAM
    failed = False
    with tempfile.TemporaryDirectory(prefix="antifreeze-faults-") as room:
        room = pathlib.Path(room)
        (room / "shim.c").write_text(SHIM)
        subprocess.run(["cc", "-O2", "-shared", "-fPIC", "-o", room / "shim.so", room / "shim.c"], check=True)
        for command in COMMANDS:
            if given.word in command[0]:
                said, wrong = refused_in_turn(program, room, command, given.most)
                failed = failed or bool(wrong)
                print(said, *(f"    WRONG {it}" for it in wrong[:20]), sep="\n", flush=True)
    return 1 if failed else 0


if __name__ == "__main__":
    sys.exit(main())
