"""Makes the last results of the robustness tests for docs/proof/TESTED.md, from the table
tools/pages/hostile.tsv, which `./hostile --note` writes."""
import re

from tools.pages.tables import stored, table, wrapped

TABLE = "hostile.tsv"
HEAD = ("part", "commit", "programs", "date", "processors", "passed", "failed", "seconds", "tried")


def grouped(text):
    """Returns the text with commas in its numbers of five to nine digits, as 10,000."""
    return re.sub(r"(?<![\w.])\d{5,9}(?![\w.])", lambda it: f"{int(it[0]):,}", text)


def indented(text):
    """Returns an item of a list as lines of at most 100 columns."""
    return "- " + wrapped(text, 98).replace("\n", "\n  ")


def results():
    """Returns a table with a row for each part, and under it what each part tried."""
    rows, head = [], ("Part", "Commit", "Programs", "Date", "Processors", "Passed", "Failed", "Seconds")
    tried = []
    for part, commit, programs, date, processors, passed, failed, seconds, told in stored(TABLE):
        rows.append((f"`{part}`", commit, programs, date, processors, grouped(passed), failed, seconds))
        pieces = grouped(told).split("; ")
        tried.append("\n".join([f"**`{part}`**", "", *map(indented, pieces)]))
    return "\n\n".join([table(head, rows), *tried])
