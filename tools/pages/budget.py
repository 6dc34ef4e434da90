"""Writes the budget of docs/develop/CHANGING.md from benchmarks/gate/costs.tsv, which
benchmarks/gate/note writes: the sums, their distance from the limit, the dearest crates, and what a
function and an edit cost. tools/pages/generate puts it between the marks of the page.
"""
import re
from dataclasses import dataclass
from statistics import quantiles

from tools import repository
from tools.pages.tables import table, wrapped

COSTS, PAGE = "benchmarks/gate/costs.tsv", "docs/develop/CHANGING.md"
BEGIN, END = "<!-- budget -->\n", "<!-- end of budget -->\n"
COLUMNS = ("crate", "proof", "tests", "edits", "functions", "must-fail")
HEADING = re.compile(r"(\S+): commit (\S+), (\d+) processors, (\d+) minutes in no crate, "
                     r"(\d+) minutes by the clock")
# The processor minutes that CI has, as the file `test` has it.
LIMIT = re.compile(r"^LIMIT = 2 \* (\d+)$", re.M)
DEAREST = 10
# The fewest functions of a crate that is not a small one.
FEWEST = 10


@dataclass
class Run:
    """The costs of one run of CI: by crate the seconds of its proof, its tests and its edits, and the
    numbers of its functions and edits."""
    day: str
    commit: str
    processors: int
    other: int
    clock: int
    rows: dict

    def heading(self):
        return (f"{self.day}: commit {self.commit}, {self.processors} processors, {self.other} minutes "
                f"in no crate, {self.clock} minutes by the clock")


def stored():
    """Returns the runs of the file of costs."""
    runs = []
    for line in repository.text_of(COSTS).splitlines()[1:]:
        if found := HEADING.fullmatch(line):
            runs.append(Run(found[1], found[2], *map(int, found.groups()[2:]), {}))
        else:
            name, *numbers = line.split("\t")
            runs[-1].rows[name] = tuple(map(int, numbers))
    return runs


def text_of(runs):
    """Returns the text of the file that has these runs."""
    parts = ["\t".join(COLUMNS)]
    for it in runs:
        parts.append(it.heading())
        parts += ["\t".join(map(str, (name, *numbers))) for name, numbers in it.rows.items()]
    return "\n".join([*parts, ""])


def limit():
    """Returns the processor minutes that CI has."""
    return 2 * int(LIMIT.search(repository.text_of("test"))[1])


def sums(rows, other):
    """Returns the table of the processor minutes by kind, and their sum."""
    kinds = [sum(it[at] for it in rows.values()) / 60 for at in range(3)]
    total = sum(kinds) + other
    head = ("Minutes of a processor", *COLUMNS[1:4], "in no crate", "all")
    shown = [f"{it:.0f}" for it in (*kinds, other, total)]
    return table(head, [(f"{len(rows)} crates", *shown)]), total


def dearest(rows):
    """Returns the table of the dearest crates."""
    first = sorted(rows.items(), key=lambda it: -sum(it[1][:3]))[:DEAREST]
    head = (f"The {DEAREST} dearest crates, in seconds", *COLUMNS[1:4], "all")
    return table(head, [(f"`{name}`", *(f"{one:,}" for one in (*it[:3], sum(it[:3])))) for name, it in first])


def each(rows):
    """Returns the table of what a small crate, a function and an edit cost, by crate."""
    small = [it[0] for it in rows.values() if it[3] < FEWEST]
    functions = [it[0] / it[3] for it in rows.values() if it[3] >= FEWEST]
    edits = [it[2] / it[4] for it in rows.values() if it[2] and it[4]]
    head = ("Seconds, by crate", "a quarter of the crates at most", "median", "a quarter at least")
    named = ((f"a crate of fewer than {FEWEST} functions and laws, its proof", small),
             ("a function or law of another crate", functions), ("an edit", edits))
    return table(head, [(what, *(f"{it:.0f}" for it in quantiles(some, n=4))) for what, some in named
                        if len(some) > 1])


def distance(total, rows):
    """Returns the sentence that tells how far the sum is from the limit, and which crates it lacks."""
    spare = round(limit() - total)
    told = f"These are {abs(spare)} minutes {'below' if spare >= 0 else 'ABOVE'} the limit of {limit()}"
    names = [f"`{it}`" for it in repository.crates() if it not in rows]
    lacks = f", without the crates that CI did not pass or try then: {', '.join(names)}" if names else ""
    return f"{told}{lacks}."


def source(runs):
    """Returns a sentence that says when and of what the figures are."""
    told = []
    for at, it in enumerate(runs):
        of = f" ({', '.join(f'`{name}`' for name in it.rows)})" if at else ""
        told.append(f"{it.day} of commit {it.commit} on {it.processors} processors, "
                    f"{it.clock} minutes by the clock{of}")
    return f"Measured {'; '.join(told)} (`{COSTS}`)."


def block():
    """Returns the part of the page between the marks. Crates that are gone do not count."""
    runs, present = stored(), set(repository.crates())
    rows = {name: row for it in runs for name, row in it.rows.items() if name in present}
    kinds, total = sums(rows, sum(it.other for it in runs))
    return "\n\n".join([kinds, wrapped(distance(total, rows)), dearest(rows), each(rows),
                        wrapped(source(runs))]) + "\n"


def page():
    """Returns the page with the budget as it should be."""
    before, _, rest = repository.text_of(PAGE).partition(BEGIN)
    return before + BEGIN + block() + END + rest.partition(END)[2]


def costs(checks):
    """Checks that a script wrote the file of costs."""
    checks.that(repository.text_of(COSTS) == text_of(stored()),
                f"{COSTS} is not as benchmarks/gate/note writes it")
