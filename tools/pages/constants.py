"""Compares the numbers on pages with constants of the code, by the table tools/pages/constants.tsv:
the page, its words with '#' in the number's place, the constant, and its crate.

A number is written in digits, as 65,536, or as a word up to ten. 'NAME / 1000' divides the constant,
as for seconds. A constant without a crate is looked for in every crate, and each that has it counts.
"""
import re

from tools import repository

TABLE = "tools/pages/constants.tsv"
WORDS = ["zero", "one", "two", "three", "four", "five", "six", "seven", "eight", "nine", "ten"]
NUMBER = r"([0-9][0-9,]*|" + "|".join(WORDS) + r")\b"
CONSTANT = re.compile(r"^\s*(?:pub(?:\(crate\))? )?const (\w+): \w+ = ([0-9_]+);", re.M)


def constants():
    """Returns the numbers of each constant, by its name and the crate that has it."""
    found = {}
    for path in repository.files():
        if crate := re.fullmatch(r"crates/(\w+)/src/.*\.rt", path):
            for name, number in CONSTANT.findall(repository.text_of(path)):
                found.setdefault(name, {}).setdefault(crate[1], set()).add(int(number))
    return found


def numbers_on(page, words):
    """Returns the numbers that a page has where these words have '#'."""
    text = " ".join(repository.text_of(page).replace("**", "").split())
    before, _, after = words.partition("#")
    written = re.findall(re.escape(before) + NUMBER + re.escape(after), text, re.I)
    return {WORDS.index(it.lower()) if it.lower() in WORDS else int(it.replace(",", "")) for it in written}


def compare_constants(checks):
    """Compares each row of the table with the page and the code."""
    known = constants()
    for line in repository.text_of(TABLE).splitlines()[1:]:
        page, words, name, crate = line.split("\t")
        name, _, divisor = name.partition(" / ")
        by_crate = known.get(name, {})
        wanted = set().union(*(by_crate.get(it, set()) for it in ([crate] if crate else by_crate)))
        wanted = {it // int(divisor or 1) for it in wanted}
        found = numbers_on(page, words)
        checks.that(wanted, f"{TABLE}: {crate or 'any crate'} has to have a constant {name}")
        checks.that(found, f"{TABLE}: {page} has no words {words!r}")
        checks.that(not (found and wanted) or found == wanted, f"{page}, {words!r}: {sorted(found)}; "
                    f"{name} of the code: {sorted(wanted)}")
