"""Checks the walk from socket to socket of docs/develop/ARCHITECTURE.md against the sources, and counts
the files and crates that a put passes there."""
import glob
import os
import re

from tools import repository
from tools.pages.diagrams import is_in, sources_of

PAGE = "docs/develop/ARCHITECTURE.md"
# The most that a put may pass from socket to socket.
MOST_FILES, MOST_CRATES, MOST_CHANGES = 24, 11, 40
# Functions, and the crate in brackets behind them.
NAMED = re.compile(r"((?:`[\w:]+`, )*`[\w:]+`) \(`(craq_\w+)`\)")


def walk(checks):
    """Finds each function of the walk in its crate, and compares the counts that the page gives."""
    text = repository.text_of(PAGE)
    part = re.split(r"\n##+ ", text.partition("\n### From socket to socket")[2])[0]
    named = functions_in(part)
    checks.that(len(named) > 30, f"{PAGE}: the functions from socket to socket were not found")
    for function, crate in named:
        checks.that(is_in(function, sources_of([crate])), f"{PAGE} names {function}, which {crate} has not")
    for column in (1, 2):
        way = way_of(part, column)
        files, crates, changes = counts_of(way)
        wanted = f"{len(set(way))} functions, {files} files, {crates} crates, {changes} changes of file"
        checks.that(wanted in " ".join(part.split()), f"{PAGE} has to say: {wanted}")
        checks.that(files <= MOST_FILES and crates <= MOST_CRATES and changes <= MOST_CHANGES,
                    f"{PAGE}: a put passes more than {MOST_FILES} files, {MOST_CRATES} crates or "
                    f"{MOST_CHANGES} changes of file")


def functions_in(text):
    """Returns the functions that a text names, each with its crate."""
    return [(function, crate) for names, crate in NAMED.findall(text)
            for function in re.findall(r"`([\w:]+)`", names)]


def way_of(part, column):
    """Returns the functions of a column of the table, in order. "The same" are those of the first
    column, in that row, that follow the last one named, or that stand in no other's place."""
    way = []
    for line in re.findall(r"^\|(?!---).*$", part, re.M):
        cells = line.strip("|").split("|")
        first, named = functions_in(cells[1]), functions_in(cells[column])
        if "the same" in cells[column]:
            last = named[-1:]
            named += first[first.index(last[0]) + 1:] if last and last[0] in first else first[len(named):]
        way += named
    return way


def counts_of(way):
    """Returns the number of files and of crates in which these functions stand, and how often the file
    changes from one to the next."""
    files = [file_of(*it) for it in way]
    changes = sum(a != b for a, b in zip(files, files[1:]))
    return len(set(files)), len({crate for _, crate in way}), changes


def file_of(function, crate):
    """Returns the file of a crate's sources that has a function."""
    names = sorted(glob.glob(repository.path("crates", crate, "src", "**", "*.rt"), recursive=True))
    found = [it for it in names if is_in(function, [repository.text_of(it)])]
    return os.path.relpath(found[0], repository.TOP) if found else None
