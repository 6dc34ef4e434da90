#!/usr/bin/env python3
"""Compares the cost of a step of the proved node with that of the plain one.

    benchmarks/node/compare.py PROVED PLAIN [PROCESSOR]

PROVED is built from measure_main.txt, PLAIN from plain_main.rs (README.md). Both run alternately on
PROCESSOR (3 by default): five times with 1,000 objects, three times with 1,000,000. Each prints the
CPU time of 1,024 steps, several times a run. Prints the median time of a step in nanoseconds."""

import os
import statistics
import subprocess
import sys

TIMES = {1_000: 5, 1_000_000: 3}
STEPS = 1_024


def ran(words, processor):
    """Runs a program once. Returns its line of counts, and the times of each measurement."""
    pin = lambda: os.sched_setaffinity(0, {processor})
    out = subprocess.run(words, check=True, capture_output=True, text=True, preexec_fn=pin).stdout
    times, did = {}, ""
    for line in out.splitlines():
        if line.startswith("did "):
            did = line
        else:
            waiting, step, time = line.split()
            times.setdefault((step, int(waiting)), []).append(int(time) / STEPS)
    return did, times


def main():
    if len(sys.argv) not in (3, 4):
        sys.exit(__doc__)
    proved, plain = map(os.path.realpath, sys.argv[1:3])
    processor = int((sys.argv + ["3"])[3])
    programs = {"proved": [proved], "plain": [plain, "measure"]}
    medians = {}
    for objects, count in TIMES.items():
        for role in ("single", "head", "middle", "tail"):
            found = {name: {} for name in programs}
            for turn in range(count):
                if sys.stderr.isatty():
                    sys.stderr.write(f"\r{role}, {objects:,} objects, run {turn + 1} of {count}{'':20}\r")
                dids = set()
                for name, words in programs.items():
                    did, times = ran([*words, role, str(objects)], processor)
                    dids.add(did)
                    for key, some in times.items():
                        found[name].setdefault(key, []).extend(some)
                if len(dids) != 1 or " 0 " not in next(iter(dids)):
                    sys.exit(f"the programs did not take the same steps: {dids}")
            for key in found["proved"]:
                pair = [statistics.median(found[name][key]) for name in ("proved", "plain")]
                if min(pair) > 0:
                    medians[role, *key, objects] = pair
                    print(f"{role:7} {key[0]:16} {key[1]:5} waiting {objects:9,} objects: "
                          f"proved {pair[0]:8.0f}, plain {pair[1]:8.0f}, times {pair[0] / pair[1]:.2f}",
                          flush=True)
    small, large = TIMES
    for key in [it[:3] for it in medians if it[3] == small]:
        growth = [medians[*key, large][at] / medians[*key, small][at] for at in (0, 1)]
        print(f"{key[0]:7} {key[1]:16} {key[2]:5} waiting, growth: "
              f"proved {growth[0]:.2f}, plain {growth[1]:.2f}, times {growth[0] / growth[1]:.2f}")


if __name__ == "__main__":
    main()
