#!/usr/bin/env python3
"""Prints what an answer costs while 10 and while 1,000 calls wait.

    benchmarks/node/answers.py NODE_BENCH [PROCESSOR]

NODE_BENCH is built from measure_main.txt (README.md). It runs five times with 1,000 objects, on
PROCESSOR (3 by default). Prints the median nanoseconds of an acknowledgement that answers the call
that has waited longest: of the node alone, at its desk with the look-up of the caller, and the
difference."""

import os
import statistics
import sys

from compare import ran

TIMES = 5


def main():
    if len(sys.argv) not in (2, 3):
        sys.exit(__doc__)
    program = os.path.realpath(sys.argv[1])
    processor = int((sys.argv + ["3"])[2])
    found = {}
    for _ in range(TIMES):
        did, times = ran([program, "answers", "1000"], processor)
        if did.split()[2:4] != ["0", "0"]:
            sys.exit(f"steps were refused: {did}")
        for (what, waiting), some in times.items():
            found.setdefault((waiting, what), []).extend(some)
    for waiting in sorted({it for it, _ in found}):
        node, desk = (statistics.median(found[waiting, what]) for what in ("node", "desk"))
        print(f"{waiting:5} waiting: node {node:6.0f}, desk {desk:6.0f}, difference {desk - node:6.0f}")


if __name__ == "__main__":
    main()
