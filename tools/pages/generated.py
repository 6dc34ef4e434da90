"""Writes the pages that are generated, DEFINITIONS.md, MUTANTS.md, PROVED.md and TESTED.md of
docs/proof, the budget of docs/develop/CHANGING.md (budget.py) and the figures of README.md (speed.py).
Puts the rows of tools/pages/mutants.tsv in the order of the crates.

    tools/pages/generate     prints the path of each file that it changed

A page is a template, as tools/pages/mutants.md, with a text for each line '@NAME@'. The texts come
from the sources (defined.py) and from tab-separated files beside the templates:

    proved.tsv           crate, claim, functions whose contracts carry it. The claim of a crate's first
                         row is empty where the first clause of its docstring is the claim. With
                         'layer N' in place of a crate: a sentence above the table of that layer
    mutants.tsv          edit (crate/name), what it does wrong, date when it was last refused
    tested_mutants.tsv   mutants that a test fails: what it does wrong, crate, test, line, note, date
    plant.tsv            the results of `rt plant`, and why a mutant was let through
    hostile.tsv          the last results of `./hostile --note` (results.py)

tools/pages/check refuses a page that differs from what this module writes, an edit or a crate
without a claim, a claim of more than 25 words, a function that the crate does not have, a module of
definitions without a first comment, and a template of too many words.
"""
import re
import sys

from tools import mutants, repository
from tools.pages import budget, defined, results, speed
from tools.pages.sizes import MOST_IN_CELL, words
from tools.pages.tables import filled, layers, stored, table, wrapped

# The most words of each template.
TEMPLATES = {"definitions.md": 700, "mutants.md": 400, "proved.md": 400, "tested.md": 2_000}
DATE = re.compile(r"CI|never|\d{4}-\d\d-\d\d")


# MUTANTS.

def files_of(mutant):
    """Returns the files that an edit changes, each once."""
    text = repository.text_of("crates", mutant.crate, mutant.folder, f"{mutant.edit}.edit")
    return list(dict.fromkeys(re.findall(r"^file: *(\S+)", text, re.M)))


def row_of(mutant):
    link = f"[`{mutant.edit}`](../../crates/{mutant.crate}/{mutant.folder}/{mutant.edit}.edit)"
    return link, ", ".join(f"`{it}`" for it in files_of(mutant)), mutant.claim, mutant.refused


def edits(some):
    """Returns a heading and a table for each crate that has edits."""
    head, parts = ("Edit", "File", "What it does wrong", "Last refused"), []
    for crate in repository.crates():
        if rows := [row_of(it) for it in some if it.crate == crate]:
            parts.append(f"### {crate}\n\n{table(head, rows)}")
    return "\n\n".join(parts)


def without(some):
    """Returns a sentence that names the crates without edits."""
    having = {it.crate for it in some}
    named = ", ".join(f"`{it}`" for it in repository.crates() if it not in having)
    return wrapped(f"Crates without edits: {named}.")


def tested():
    head = ("What it does wrong", "Crate", "Test", "Line that fails", "Note", "Tried")
    return table(head, [(claim, f"`{crate}`", f"`{test}`", f"`{line}`" if line else "", note, tried)
                        for claim, crate, test, line, note, tried in stored("tested_mutants.tsv")])


def plant():
    head = ("Crate", "Functions", "Refused", "Correct", "Let through", "Not judged", "Tried",
            "Why let through")
    return table(head, [(f"`{crate}`", *rest) for crate, *rest in stored("plant.tsv")])


def mutants_page():
    some = mutants.mutants()
    return filled("mutants.md", {"edits": edits(some), "without": without(some), "tested": tested(),
                                 "plant": plant()})


# PROVED.

def sources():
    """Returns the code of each crate without comments."""
    found = {it: "" for it in repository.crates()}
    for name in repository.files():
        if it := re.fullmatch(r"crates/(\w+)/src/.*\.rt", name):
            found[it[1]] = found.get(it[1], "") + re.sub(r"//[^\n]*", "", repository.text_of(name))
    return found


def first_clause(crate):
    """Returns the first sentence of a crate's docstring, up to a semicolon."""
    root = "src/main.rt" if repository.is_program(crate) else "src/lib.rt"
    head = re.match(r"(?://! .*\n)*", repository.text_of("crates", crate, root))[0]
    sentence = re.split(r"\.(?: |$)", " ".join(re.findall(r"//! (.*)", head)))[0]
    return sentence.partition(";")[0] + "."


def rows_of(crate, claimed, code):
    """Returns the rows of a crate, the first with the numbers of its functions and its edits."""
    functions = len(re.findall(r"\bfn \w+", code))
    edited = sum(len(repository.edits_in(crate, it)) for it in ("must-fail", "wrong"))
    found = []
    for claim, carriers in claimed:
        first = (f"`{crate}`", str(functions), str(edited)) if not found else ("", "", "")
        found.append((first[0], claim or first_clause(crate), carriers, *first[1:]))
    return found


def layer(number, title, crates, code):
    """Returns the part of a layer: its heading, the sentences above its table, and the table."""
    head = ("Crate", "What is proved", "Carried by", "Functions", "Mutants")
    notes, claimed = [], {}
    for crate, claim, carriers in stored("proved.tsv"):
        if crate == f"layer {number}":
            notes.append(claim)
        claimed.setdefault(crate, []).append((claim, carriers))
    made = [row for crate in crates for row in rows_of(crate, claimed.get(crate, [("", "")]), code[crate])]
    parts = [f"## {number}. {title}", wrapped(" ".join(notes)), table(head, made)]
    return "\n\n".join(it for it in parts if it)


# Words of the code of a crate that starts threads, and of one that uses sockets.
STARTS = re.compile(r"\bThreads\b.*\+|: Threads\b")
CONNECTS = re.compile(r"\bNet<|\bTcpStream\b|\bimpl Net\b")


def handles(code):
    """Returns the sentences that name the crates that start threads or use sockets, tests aside."""
    found = []
    for verb, word in ("Threads are started by", STARTS), ("Sockets are used by", CONNECTS):
        crates = [f"`{it}`" for _, _, some in layers() for it in some if word.search(code[it])]
        found.append(f"{verb} {', '.join(crates)} and crates of tests.")
    return wrapped(" ".join(found))


def proved_page():
    code = sources()
    parts = [layer(number, title, crates, code) for number, title, crates in layers()]
    return filled("proved.md", {"handles": handles(code), "layers": "\n\n".join(parts)})


# All of them.

def texts():
    """Returns the text of each generated file, by path."""
    return {mutants.TABLE: mutants.text_of(mutants.mutants()), "docs/proof/MUTANTS.md": mutants_page(),
            "docs/proof/PROVED.md": proved_page(), "docs/proof/DEFINITIONS.md": defined.page(),
            "docs/proof/TESTED.md": filled("tested.md", {"results": results.results()}),
            budget.PAGE: budget.page(), speed.PAGE: speed.page()}


def write():
    """Writes each file that differs, and returns their paths."""
    changed = [(path, text) for path, text in texts().items() if repository.text_of(path) != text]
    for path, text in changed:
        with open(repository.path(path), "w", encoding="utf-8") as it:
            it.write(text)
    return [path for path, _ in changed]


def carriers_in(text):
    """Returns the names of functions and types in a cell: of `A::{b, c}` the names b and c."""
    found = []
    for it in re.findall(r"`([^`]*)`", text):
        found += re.findall(r"\w+", it[it.rfind("{"):] if "{" in it else it.split("::")[-1])
    return found


def claims_of_crates(checks):
    """Tests the claims of PROVED: each crate has one, in 25 words, and the functions that it names."""
    known, claimed = {it for _, _, some in layers() for it in some}, stored("proved.tsv")
    defined = {crate: set(re.findall(r"\b(?:fn|struct|enum|trait|type|mod) (\w+)", code))
               for crate, code in sources().items() if crate in known}
    for crate in sorted(known - {it[0] for it in claimed}):
        checks.that(False, f"tools/pages/proved.tsv lacks {crate}")
    for crate, claim, carriers in claimed:
        name = f"tools/pages/proved.tsv, {crate}"
        if crate not in known:
            checks.that(re.fullmatch(r"layer \d", crate), f"{name}, which is not there")
            continue
        text = claim or first_clause(crate)
        checks.that(words(text) <= MOST_IN_CELL, f"{name}: a claim of {words(text)} words: {text[:40]}")
        for it in carriers_in(carriers):
            others = [other for other in known if it in defined[other]]
            checks.that(crate in others, f"{name} has no {it}; in {', '.join(sorted(others)) or 'no crate'}")


def claims_of_mutants(checks):
    """Tests the claims of MUTANTS: an edit has a claim, in 25 words, and a date."""
    for it in mutants.mutants():
        name = f"{mutants.TABLE}, {it.crate}/{it.edit}"
        checks.that(it.claim, f"{name}: it has no claim")
        checks.that(words(it.claim) <= MOST_IN_CELL, f"{name}: a claim of {words(it.claim)} words")
        checks.that(DATE.fullmatch(it.refused), f"{name}: {it.refused!r} is no date")
    for it in mutants.strange():
        checks.that(False, f"{mutants.TABLE} names {it}, which is not there")
    for claim, _, test, line, note, _ in stored("tested_mutants.tsv"):
        name = f"tools/pages/tested_mutants.tsv, {claim[:40]}"
        checks.that(max(words(claim), words(note)) <= MOST_IN_CELL, f"{name}: more than 25 words")
        lines = repository.text_of("crates", test, "stdout") if test.startswith("craq_") else line
        checks.that(line in lines, f"{name}: {test} has no line {line!r}")


def templates(checks):
    """Compares the words of each template with their limit."""
    for name, most in TEMPLATES.items():
        count = words(re.sub(r"@\w+@", "", repository.text_of("tools/pages", name)))
        checks.that(count <= most, f"tools/pages/{name} has {count} words, and is to have at most {most}")


def generated(checks):
    """Compares the generated files with what would be written."""
    claims_of_mutants(checks)
    claims_of_crates(checks)
    defined.check(checks)
    templates(checks)
    budget.costs(checks)
    for path, text in texts().items():
        checks.that(repository.text_of(path) == text, f"{path} is not what tools/pages/generate writes")


def main():
    for path in write():
        print(path)
    return 0


if __name__ == "__main__":
    sys.exit(main())
