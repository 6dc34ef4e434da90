"""Keeps what CI cost: reads what `./test` printed, and writes benchmarks/gate/costs.tsv.

    benchmarks/gate/note [--commit NAME] [--day YYYY-MM-DD] [--add] [FILE]

Reads standard input without FILE. The commit and the day are those of the clone and of today, unless
they are given. A crate that failed, or that was not tried after that, is left out. `--add` keeps the
runs of the file, and of their crates those that this output lacks.

The file has a part for each run. Its first line has the day, the commit and the processors, the
processor minutes that `./test` saw in no crate, and the minutes by the clock. A row for each crate
follows: the seconds of its proof, its tests and its edits, then the numbers of its functions and of
its edits in CI.
"""
import argparse
import re
import sys

from benchmarks import note
from tools import repository
from tools.pages import budget, generated

ROW = re.compile(r"^(craq\w*)((?: +\d+){4})$", re.M)
FAILED = re.compile(r"^rt: FAILED: (.*)$", re.M)
OTHER = re.compile(r"^minutes of a processor: .*, other (\d+)$", re.M)
CLOCK = re.compile(r"^(\d+) minutes by the clock, on (\d+) processors$", re.M)


class Unread(Exception):
    """Why an output has no costs."""


def run_of(text, day, commit):
    """Returns the run that `./test` printed. Raises `Unread` if a part of its costs is missing."""
    other, clock = OTHER.search(text), CLOCK.search(text)
    failed = {name for it in FAILED.findall(text) for name in it.split()}
    code = generated.sources()
    rows = {name: (*map(int, numbers.split()[:3]), *counts_of(name, code))
            for name, numbers in ROW.findall(text) if name not in failed}
    if not (rows and other and clock):
        raise Unread("it has no table of processor seconds, or no sums below it")
    return budget.Run(day, commit, int(clock[2]), int(other[1]), int(clock[1]), rows)


def counts_of(name, code):
    """Returns the number of a crate's functions, and of its edits that CI tries."""
    return len(re.findall(r"\bfn \w+", code.get(name, ""))), len(repository.edits_in(name, "must-fail"))


def together(runs, newest):
    """Returns the runs with the newest one, each without the crates of later ones."""
    for it in runs:
        it.rows = {name: row for name, row in it.rows.items() if name not in newest.rows}
    return [it for it in runs if it.rows] + [newest]


def main():
    reader = argparse.ArgumentParser(usage=__doc__.partition("\n\n")[2])
    reader.add_argument("--commit")
    reader.add_argument("--day")
    reader.add_argument("--add", action="store_true")
    reader.add_argument("file", nargs="?", type=argparse.FileType(encoding="utf-8"), default=sys.stdin)
    asked = reader.parse_args()
    try:
        run = run_of(asked.file.read(), asked.day or note.day(), asked.commit or note.commit())
    except Unread as why:
        print(f"note: {why}", file=sys.stderr)
        return 1
    runs = together(budget.stored() if asked.add else [], run)
    with open(repository.path(budget.COSTS), "w", encoding="utf-8") as it:
        it.write(budget.text_of(runs))
    print(*generated.write(), sep="\n")
    return 0


if __name__ == "__main__":
    sys.exit(main())
