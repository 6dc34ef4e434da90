"""Tells which functions a running gate takes longest to prove.

    benchmarks/gate/functions [CRATE]     watches the provers that run beside it, of one crate or of all,
                                          until they have ended or Ctrl-C, then prints a line for each
                                          function: its seconds, its crate and its path, the longest first

A prover keeps each module that it checked as a file below the folder of temporary files. A module's
seconds are those between its file and the one before, by the clock: compare figures of a machine that
does nothing else. A function has several modules: of its steps, its types, its proof.
"""
import collections
import os
import re
import sys
import tempfile
import time

FOLDER = re.compile(r"rattle-logic-built-locked-\d+-\d+")
MODULE = re.compile(r"Rattle-(\w+)-(?:specs|proofs)\.(?:contracts\.)?(.+)\.oantt")
# Seconds between two looks, and those without a prover after which it ends.
PAUSE, QUIET = 2, 60


def folders():
    """Returns the folders of the provers that run now."""
    top = tempfile.gettempdir()
    return [os.path.join(top, name) for name in os.listdir(top) if FOLDER.fullmatch(name)]


def look(seen):
    """Notes the time of each file that is there, by folder and name. Reports whether a prover runs."""
    found = folders()
    for folder in found:
        try:
            with os.scandir(folder) as files:
                for it in files:
                    if it.name not in seen[folder] and it.name.endswith(".oantt"):
                        seen[folder][it.name] = it.stat().st_mtime
        except FileNotFoundError:
            pass
    return bool(found)


def function_of(module):
    """Returns the function, or the file of lemmas, that a module is of."""
    parts = module.split(".")
    return ".".join(parts[:-1]) if len(parts) > 1 and re.match(r"[A-Z]|.*-\d", parts[-1]) else module


def seconds_of(seen):
    """Returns the seconds of each function, by crate and path."""
    found = collections.Counter()
    for files in seen.values():
        before = None
        for name, at in sorted(files.items(), key=lambda it: it[1]):
            if (it := MODULE.fullmatch(name)) and before is not None:
                found[it[1], function_of(it[2])] += at - before
            before = at
    return found


def main():
    if len(sys.argv) > 2 or sys.argv[1:2] in (["--help"], ["-h"]):
        print(__doc__, file=sys.stderr)
        return 0 if len(sys.argv) == 2 else 2
    seen, ends = collections.defaultdict(dict), time.time() + QUIET
    try:
        while time.time() < ends:
            if look(seen):
                ends = time.time() + QUIET
            time.sleep(PAUSE)
    except KeyboardInterrupt:
        pass
    for (crate, function), seconds in seconds_of(seen).most_common():
        if sys.argv[1:] in ([], [crate]):
            print(f"{seconds:7.1f} {crate} {function}")
    return 0


if __name__ == "__main__":
    sys.exit(main())
