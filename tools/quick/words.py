"""Words that no text of the repository says, and names that are none."""
import re

from tools import repository

LIST = "tools/quick/words.txt"
HISTORY = "docs/develop/CHANGELOG.md"
PAGE = "docs/develop/ARCHITECTURE.md"
CRATE = re.compile(r"\bcraq_[a-z_]*[a-z]\b")
# Crates that stand elsewhere than under crates/, and what is no crate.
OTHER_NAMES = re.compile(r"craq_\w*bench|craq_soak|craq_served|craq_accepted")


def patterns():
    rows = [line.partition("  ") for line in repository.text_of(LIST).splitlines()
            if not line.startswith("#")]
    return [(re.compile(pattern), why.strip()) for pattern, _, why in rows]


def texts():
    for name in repository.files():
        try:
            yield name, repository.text_of(name)
        except UnicodeDecodeError:
            pass


def unwanted(checks):
    """No text has a word of the list."""
    known = patterns()
    for name, text in texts():
        if name == LIST or name.endswith((".expected", ".script")):
            continue
        for at, line in enumerate(text.splitlines(), 1):
            for pattern, why in known:
                found = pattern.search(line)
                if found:
                    checks.that(False, f"{name}:{at}: {found[0]!r}: {why}")
    checks.that(True, "words")


def names_of_crates(checks):
    """The documents and tools name only crates that exist, and the page of the architecture names each.
    The changelog tells of crates of its time, so it is left out."""
    known = set(repository.crates())
    for name, text in texts():
        if name == HISTORY:
            continue
        if name.endswith(".md") or name.startswith("tools/") or name == "crates.txt":
            strange = {it for it in CRATE.findall(text) if it not in known and not OTHER_NAMES.fullmatch(it)}
            checks.same(f"{name}: names that are no crates", sorted(strange), [])
    text = repository.text_of(PAGE)
    checks.same(f"crates that {PAGE} lacks", [it for it in known if not re.search(rf"\b{it}\b", text)], [])
