"""Checks the size of pages: words of a page and of all pages together, characters of a line, words of
a table's cell.

LIMITS is the one table of the most words of a page. Generated pages do not count to the words of all
pages, but their templates do. Files of results are what a script measured, and are not looked at.
"""
import re
from fnmatch import fnmatch

from tools import repository

MOST_COLUMNS, MOST_IN_CELL = 100, 25
# The most words of all pages together, beside generated ones.
MOST_TOGETHER = 40_000
# The most words of a page, by the first pattern that its path meets.
LIMITS = {
    "README.md": 900,
    "CONTRIBUTING.md": 700,
    "docs/use/*": 2_000,
    "docs/proof/*": 2_500,
    "docs/develop/*": 3_000,
    "docs/DECISIONS.md": 3_000,
    "benchmarks/server/CHANGES.md": 800,
    "benchmarks/*/README.md": 400,
    "clients/README.md": 700,
    "crates/*/README.md": 150,
    "tools/pages/tested.md": 1_500,
    "tools/*": 700,
}
# Generated pages, with limits of their own or none.
GENERATED = {
    "docs/proof/DEFINITIONS.md": None,
    "docs/proof/MUTANTS.md": None,
    "docs/proof/PROVED.md": 4_200,
    "docs/proof/TESTED.md": 2_500,
}
RESULTS = ("benchmarks/*/RESULTS.md", "benchmarks/server/PROFILE.md")


def without_blocks(text):
    """Returns the text without its fenced blocks."""
    return re.sub(r"^```.*?^```$", "", text, flags=re.M | re.S)


def words(text):
    """Returns the number of words; a piece in backticks is one word, and a number is none."""
    return sum(1 for it in re.sub(r"`[^`]*`", " code ", text).split() if re.search(r"[A-Za-z]", it))


def matching(path, table):
    """Returns the first pattern of a table that a path meets, or None."""
    return next((it for it in table if fnmatch(path, it)), None)


def lines_of(checks, page, text):
    """Checks the length of each line, and the words of each cell of a table."""
    for line in text.splitlines():
        if not line.startswith("|"):
            checks.that(len(line) <= MOST_COLUMNS or " " not in line.strip(),
                        f"{page} has a line of {len(line)} characters: {line[:60]}")
        elif wide := [it for it in line.strip("|").split(" | ") if words(it) > MOST_IN_CELL]:
            checks.that(False, f"{page} has a cell of {words(wide[0])} words: {wide[0].strip()[:60]}")


def sizes(checks):
    """Compares each page with its bounds, and the words of all pages with theirs."""
    together = 0
    for page in (it for it in repository.files() if it.endswith(".md") and not matching(it, RESULTS)):
        text = without_blocks(repository.text_of(page))
        count, own = words(text), matching(page, GENERATED)
        most = GENERATED[own] if own else LIMITS.get(matching(page, LIMITS), 0)
        checks.that(most is None or count <= most, f"{page} has {count} words, and is to have at most {most}")
        lines_of(checks, page, text)
        together += 0 if own else count
    checks.that(together <= MOST_TOGETHER,
                f"all pages together have {together} words, and are to have at most {MOST_TOGETHER}")
