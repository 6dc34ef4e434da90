#!/usr/bin/env python3
"""Measures the steps per second of one node that keeps its full history, by the number of entries.

    benchmarks/node/entries.py PROGRAM

PROGRAM is a built craq_lab. The chain has one node (`--core plain`). For each number of entries a
script makes that many puts, of as many objects. Then it makes reads of one object (50,000, or 5,000
with 10,000 entries), or 1,000 puts of it. The time of the script without those requests is
subtracted. The puts add entries too.

Times are CPU times; each script is played three times and the least time counts. A time includes
parsing the line and printing the reply. On a terminal a line on standard error shows the
progress."""

import resource
import subprocess
import sys
import tempfile

PUTS = 1000


def processor_time():
    """Returns the CPU time of all programs that were run, in seconds."""
    used = resource.getrusage(resource.RUSAGE_CHILDREN)
    return used.ru_utime + used.ru_stime


def played(program, lines):
    """Returns the least time of three plays of a script."""
    with tempfile.NamedTemporaryFile("w", suffix=".script") as script:
        script.write("".join(line + "\n" for line in lines))
        script.flush()
        times = []
        for _ in range(3):
            began = processor_time()
            subprocess.run([program, "play", "--core", "plain", "--nodes", "1", script.name], check=True,
                           stdout=subprocess.DEVNULL)
            times.append(processor_time() - began)
        return min(times)


def tell(text):
    """Shows the progress on standard error, if that is a terminal."""
    if sys.stderr.isatty():
        sys.stderr.write(f"\r{text:40}\r")
        sys.stderr.flush()


def main():
    if len(sys.argv) != 2:
        sys.exit(__doc__)
    program = sys.argv[1]
    print("entries  reads a second  puts a second")
    for entries in (1, 100, 10000):
        tell(f"{entries} entries")
        filled = [f"put 1 1 {n} k{n} a" for n in range(1, entries + 1)]
        base = played(program, filled)
        asked = 5000 if entries > 1000 else 50000
        tell(f"{entries} entries, reads")
        reads = played(program, filled + ["read 1 strong k1"] * asked) - base
        tell(f"{entries} entries, puts")
        puts = played(program, filled + [f"put 1 1 {entries + n} k1 a" for n in range(1, PUTS + 1)]) - base
        print(f"{entries:7}  {asked / max(reads, 1e-6):14.0f}  {PUTS / max(puts, 1e-6):13.0f}")


main()
