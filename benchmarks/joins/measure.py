#!/usr/bin/env python3
"""Measures the time and the allocations of each step of a join.

    benchmarks/joins/measure.py PROGRAM [OBJECTS]

PROGRAM is built from join_main.txt (README.md). It runs three times with allocated.rs, which rustc
builds here, loaded before the C library. For each step the least time counts. The bytes are those
that the step requested from the allocator; they must be equal in each run."""

import os
import re
import subprocess
import sys
import tempfile

HERE = os.path.dirname(os.path.realpath(__file__))
TIMES = 3


def counted(program, objects, library, turn):
    """Returns the steps in order: the clients of the puts, name, nanoseconds, bytes."""
    if sys.stderr.isatty():
        sys.stderr.write(f"\rrun {turn + 1} of {TIMES}\r")
    ran = subprocess.run([program, objects], env={**os.environ, "LD_PRELOAD": library}, check=True,
                         capture_output=True, text=True)
    steps, start, end, whose = [], 0, 0, ""
    for line, total in zip(ran.stdout.splitlines(), map(int, ran.stderr.split()), strict=True):
        if line == "begin":
            start = total
        elif line == "end":
            end = total
        elif found := re.fullmatch(r"(.*): (\d+) ns, (\d+) outs", line):
            steps.append((whose, found[1], int(found[2]), end - start))
        elif line == f"{objects} of {objects} objects are the same":
            continue
        elif line.endswith("are the same"):
            sys.exit(line)
        else:
            whose = line
    return steps


def grouped(steps):
    """Yields name, nanoseconds and bytes of the steps; all parts but the last make two lines."""
    parts = [it for it in steps if it[1] == "node 2, part"]
    before = parts[:-1]
    for step in steps:
        if step[1] != "node 2, part":
            yield step[1:]
        elif step is parts[0]:
            sums = (sum(it[at] for it in before) for at in (2, 3))
            yield f"node 2, the first {len(before)} parts", *sums
            yield "  the dearest of them", max(it[2] for it in before), max(it[3] for it in before)
            yield "node 2, the last part", *parts[-1][2:]


def main():
    if len(sys.argv) not in (2, 3):
        sys.exit(__doc__)
    with tempfile.TemporaryDirectory() as folder:
        library = f"{folder}/allocated.so"
        source = f"{HERE}/allocated.rs"
        subprocess.run(["rustc", "--edition", "2021", "-O", "--crate-type", "cdylib", "-o", library, source],
                       check=True)
        runs = [counted(os.path.realpath(sys.argv[1]), (sys.argv + ["10000"])[2], library, turn)
                for turn in range(TIMES)]
    if any([it[:2] + it[3:] for it in run] != [it[:2] + it[3:] for it in runs[0]] for run in runs):
        sys.exit("the runs allocate differently")
    steps = [(*now[0][:2], min(it[2] for it in now), now[0][3]) for now in zip(*runs, strict=True)]
    for whose in dict.fromkeys(it[0] for it in steps):
        print(f"{whose:32} microseconds        bytes")
        for name, time, size in grouped([it for it in steps if it[0] == whose]):
            print(f"{name:32} {time / 1000:12.1f} {size:12,}")


main()
