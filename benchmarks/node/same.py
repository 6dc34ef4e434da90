#!/usr/bin/env python3
"""Checks that the plain node does what the proved one does.

    benchmarks/node/same.py PLAIN CRAQ_LAB [COUNT]

PLAIN is built from plain_main.rs, CRAQ_LAB is a built craq_lab. COUNT random scripts (200 by
default) are generated, on chains of 1 to 5 nodes: updates of all kinds, reads, lost, late and
repeated messages, stops, removals and joins. The output of `craq_lab play` for each is compared
with that of the plain nodes."""

import subprocess
import sys
import tempfile


def main():
    if len(sys.argv) not in (3, 4):
        sys.exit(__doc__)
    plain, lab = sys.argv[1:3]
    count = int((sys.argv + ["200"])[3])
    same = lines = 0
    with tempfile.TemporaryDirectory() as folder:
        script, wanted = f"{folder}/script", f"{folder}/wanted"
        for seed in range(count):
            if sys.stderr.isatty():
                sys.stderr.write(f"\r{seed} of {count} scripts\r")
            nodes = str(seed % 5 + 1)
            subprocess.run([plain, "script", str(seed), nodes, str(200 + seed % 7 * 300), script, wanted],
                           check=True)
            played = subprocess.run([lab, "play", "--nodes", nodes, script], check=True,
                                    capture_output=True).stdout
            with open(wanted, "rb") as file:
                if file.read() == played:
                    same += 1
                    lines += played.count(b"\n")
                else:
                    print(f"seed {seed}: they differ")
    print(f"{same} of {count} scripts are the same, {lines} lines")


main()
