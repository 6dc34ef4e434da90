"""The last results of the parts, in tools/pages/hostile.tsv: `tools/hostile/run --note` writes the
rows of its parts anew, and docs/proof/TESTED.md with them."""
import os
import subprocess
import time

from tools import repository
from tools.pages import generated, results

# The parts that build all their programs themselves, without proofs.
BUILT_HERE = ("served", "removed")


def of():
    """Returns the commit of the programs, the date, and the number of processors."""
    commit = subprocess.run(["git", "rev-parse", "--short", "HEAD"], cwd=repository.TOP, capture_output=True,
                            text=True, check=True).stdout.strip()
    return commit, time.strftime("%Y-%m-%d"), str(len(os.sched_getaffinity(0)))


def programs_of(part, are_unproved):
    """Returns whether the programs of a part were proved, in the words of the page."""
    if part in BUILT_HERE or are_unproved:
        return "without proofs"
    return "stores without proofs, proved server" if part == "soak" else "proved"


def note(rows, are_unproved):
    """Writes the rows of these parts: by name the numbers of checks that passed and failed, the
    seconds, and what was tried, in words. The programs that the parts were given may be unproved."""
    known = {it[0]: it for it in results.stored(results.TABLE)}
    for name, (*counts, told) in rows.items():
        commit, *rest = of()
        known[name] = (name, commit, programs_of(name, are_unproved), *rest, *map(str, counts),
                       " ".join(told.split()))
    with open(repository.path("tools/pages", results.TABLE), "w", encoding="utf-8") as it:
        it.write("".join("\t".join(row) + "\n" for row in (results.HEAD, *known.values())))
    generated.write()
