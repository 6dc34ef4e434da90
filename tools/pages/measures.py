"""Compares the measured numbers of pages with the files of results that scripts of benchmarks/ wrote.

A file of results begins with a line that has its day, the commit and the machine. On every other page
a number with a unit of measures ('µs', 'puts a second', 'of redis', ..) is one of a file of results,
as it stands there. A number behind 'at most' or 'at least' is a bound, which nobody measured. Pages
that list changes by their commits have figures of their own.
"""
import re

from tools import repository
from tools.pages.sizes import RESULTS, matching, without_blocks

HEADING = re.compile(r"\d{4}-\d\d-\d\d: .*")
OF_COMMITS = ("benchmarks/server/CHANGES.md", "docs/develop/CHANGELOG.md")
NUMBER = r"(?<![\w.,-])(\d+(?:,\d{3})*(?:\.\d+)?)"
UNITS = (r"(?:µs|ns|nanoseconds|microseconds|(?:puts|gets|reads|strong reads|replies|requests) a second|"
         r"(?:times )?of redis|times (?:redis|that|for an?|as (?:many|long))|"
         r"bytes an? (?:object|key|client)|MB a second|"
         r"% of a core)(?!\w)")
BOUND = re.compile(r"(?:at most|at least|below|within|aim of)\s+$")


def files_of_results():
    """Returns the text of each file of results, by its path from the top."""
    return {it: repository.text_of(it) for it in repository.files() if matching(it, RESULTS)}


def numbers_of(text):
    return set(re.findall(NUMBER, text))


def measured_on(text):
    """Returns the measured numbers of a page: those with a unit, except bounds."""
    text = " ".join(without_blocks(text).split())
    return [it[1] for it in re.finditer(rf"{NUMBER} ?{UNITS}", text) if not BOUND.search(text[:it.start()])]


def measures(checks):
    """Checks the first line of each file of results, and the measured numbers of all pages."""
    results = files_of_results()
    checks.that(len(results) > 3, "the files of results were not found")
    for path, text in results.items():
        first = text.partition("\n")[0]
        checks.that(HEADING.fullmatch(first), f"{path} has to begin with its day: {first[:50]}")
        for what in ("commit ", "processors"):
            checks.that(what in first, f"{path}: its first line lacks '{what.strip()}'")
    known = set().union(*map(numbers_of, results.values()))
    for path in repository.files():
        if path.endswith(".md") and path not in results and path not in OF_COMMITS:
            for number in measured_on(repository.text_of(path)):
                checks.that(number in known,
                            f"{path} has the measured number {number}, which no file of results has")
