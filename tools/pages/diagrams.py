"""Draws the diagrams of the pages from their data, and checks them.

    tools/python tools.pages.diagrams            compares docs/diagrams with its data and the sources
    tools/python tools.pages.diagrams --write    draws each diagram anew

A diagram is NAME.toml and NAME.svg in docs/diagrams. Names of code stand in backticks in its texts;
each has to be in the sources. The pictures of runs, in docs/pictures, are drawn by craq_lab, and
tools.pages.runs checks them.
"""
import glob
import os
import re
import sys
import tomllib

from tools import repository
from tools.checks import Checks
from tools.pages import matrix, sequence, speed, stack

FOLDER = "docs/diagrams"
DRAWN_BY = {"bars": speed.draw, "matrix": matrix.draw, "sequence": sequence.draw, "stack": stack.draw}
LEAST_SIZE = 12


def data_of(name):
    return tomllib.loads(repository.text_of(FOLDER, f"{name}.toml"))


def texts_in(data):
    """Returns all texts of a diagram's data."""
    if isinstance(data, str):
        return [data]
    values = data.values() if isinstance(data, dict) else data if isinstance(data, list) else []
    return [text for it in values for text in texts_in(it)]


def sources_of(crates):
    """Returns the texts of the sources of these crates: code, and definitions."""
    names = [it for crate in crates for part in ("src/**/*.rt", "specs/**/*.antt")
             for it in glob.glob(repository.path("crates", crate, part), recursive=True)]
    return [repository.text_of(it) for it in sorted(names)]


def is_in(name, sources):
    """Reports whether a function, type or definition, or a `Type::function`, is in the sources."""
    of_type, _, last = name.rpartition("::")
    declared = re.compile(rf"\b(?:fn|struct|enum|trait|type|record) {last}\b|^(?:\w+ )*{last} :", re.M)
    owner = re.compile(rf"^\s*(?:pub )?(?:impl|trait)\b[^{{;]*\b{of_type}\b", re.M)
    return any(last in it and declared.search(it) and (not of_type or owner.search(it)) for it in sources)


def names_in_sources(checks, name, data):
    """Finds each name of code of a diagram in the sources, those of a box in the crates of the box."""
    crates = repository.crates()
    everywhere = sources_of(crates)
    for part in [data, *data.get("box", [])]:
        own = part.get("crates", [])
        for crate in own:
            checks.that(crate in crates, f"{FOLDER}/{name}.toml names {crate}, which is no crate")
        known = [it for it in own if it in crates]
        sources = sources_of({*known, *repository.below(known)}) if own else everywhere
        for text in texts_in({key: it for key, it in part.items() if key != "box"}):
            for code in re.findall(r"`([^`]+)`", text):
                word = code.partition(" ")[0]
                place = f"not in {', '.join(own)} or below" if own else "in no crate"
                checks.that(word in crates or is_in(word, sources),
                            f"{FOLDER}/{name}.toml names {code}, which is {place}")


def diagrams(checks):
    """Checks each diagram: its names, the places of its texts, its file, and that a page shows it."""
    pages = "".join(repository.text_of(it) for it in repository.files() if it.endswith(".md"))
    names = {it: sorted(os.path.basename(path)[:-len(it)] for path
                        in glob.glob(repository.path(FOLDER, "*" + it))) for it in (".toml", ".svg")}
    checks.same_items(f"{FOLDER}, its .svg files,", names[".svg"], names[".toml"])
    for name in names[".toml"]:
        data = data_of(name)
        names_in_sources(checks, name, data)
        used = {row.get(it) for row in data.get("row", []) for it in ("at", "from", "to")}
        for lane in data.get("lane", []):
            checks.that(lane["name"] in used, f"{FOLDER}/{name}.toml has an empty lane: {lane['name']}")
        canvas = DRAWN_BY[data["kind"]](data)
        for fault in canvas.faults():
            checks.that(False, f"{FOLDER}/{name}.svg: {fault}")
        picture = canvas.svg()
        checks.that(name in names[".svg"] and repository.text_of(FOLDER, f"{name}.svg") == picture,
                    f"{FOLDER}/{name}.svg is not what tools.pages.diagrams --write draws")
        small = [it for it in re.findall(r"(\d+)px '|font-size: (\d+)px", picture)
                 if int(it[0] or it[1]) < LEAST_SIZE]
        checks.that(not small, f"{FOLDER}/{name}.svg has texts of less than {LEAST_SIZE} px")
        checks.that(f"diagrams/{name}.svg)" in pages, f"{FOLDER}/{name}.svg is shown by no page")


def write():
    for path in glob.glob(repository.path(FOLDER, "*.toml")):
        name = os.path.basename(path)[:-len(".toml")]
        data = data_of(name)
        with open(repository.path(FOLDER, f"{name}.svg"), "w", encoding="utf-8") as it:
            it.write(DRAWN_BY[data["kind"]](data).svg())


def main():
    if sys.argv[1:] == ["--write"]:
        write()
        return 0
    checks = Checks("diagrams")
    diagrams(checks)
    print(f"diagrams: {checks.passed + checks.failed} checks, {checks.failed} faults")
    return 1 if checks.failed else 0


if __name__ == "__main__":
    sys.exit(main())
