"""The mutants of the crates: their edit files, and the table tools/pages/mutants.tsv with what each
does wrong and when it was last refused. docs/proof/MUTANTS.md is generated from both."""
from typing import NamedTuple

from tools import repository

TABLE = "tools/pages/mutants.tsv"
HEAD = ("edit", "what it does wrong", "last refused")
# The word of the table for an edit of must-fail/, which each run of CI tries, and for one of wrong/
# that was never tried or not refused.
CI, NEVER = "CI", "never"


class Mutant(NamedTuple):
    """An edit of a crate, what it does wrong, and the date at which it was last refused."""

    crate: str
    folder: str
    edit: str
    claim: str
    refused: str


def edits():
    """Returns the edits that there are, as crate, folder and name, in the order of crates.txt."""
    return [(crate, folder, edit) for crate in repository.crates() for folder in ("must-fail", "wrong")
            for edit in repository.edits_in(crate, folder)]


def table():
    """Returns the claim and the date of each row, by crate and edit."""
    rows = [it.split("\t") for it in repository.text_of(TABLE).splitlines()[1:]]
    return {tuple(name.split("/")): (claim, refused) for name, claim, refused in rows}


def moved(known, there):
    """Returns the rows of edits that are not there, by the edit's name, where only one has it: the
    row of an edit that moved to another crate."""
    found = {}
    for (crate, edit), row in known.items():
        if (crate, edit) not in there:
            found.setdefault(edit, []).append(row)
    return {edit: rows[0] for edit, rows in found.items() if len(rows) == 1}


def mutants():
    """Returns each edit with its row of the table. A claim is empty where the table has none."""
    known, found = table(), edits()
    lost = moved(known, {(crate, edit) for crate, _, edit in found})
    made = []
    for crate, folder, edit in found:
        claim, refused = known.get((crate, edit)) or lost.get(edit, ("", NEVER))
        if folder == "must-fail":
            refused = CI
        elif refused == CI:
            refused = NEVER
        made.append(Mutant(crate, folder, edit, claim, refused))
    return made


def text_of(some):
    """Returns the text of the table with these mutants."""
    rows = [(f"{it.crate}/{it.edit}", it.claim, it.refused) for it in some]
    return "".join("\t".join(row) + "\n" for row in (HEAD, *rows))


def note(refused, date):
    """Writes the date at these edits, given as crate and name, into the table."""
    rows = [it._replace(refused=date) if (it.crate, it.edit) in refused and it.folder == "wrong" else it
            for it in mutants()]
    with open(repository.path(TABLE), "w", encoding="utf-8") as it:
        it.write(text_of(rows))


def strange():
    """Returns the rows of the table whose edits are not there, and did not move."""
    found = edits()
    there = {(crate, edit) for crate, _, edit in found}
    names = {edit for crate, _, edit in found if (crate, edit) not in table()}
    return ["/".join(it) for it in table() if it not in there and it[1] not in names]
