"""The programs of benchmarks/: their texts, and the crates that they stand on."""
import os
import re

from tools import repository

HERE = repository.path("benchmarks")


def programs():
    """Returns the programs by name, as they stand."""
    found = [f"{folder}/{file.removesuffix('_main.txt')}" for folder in os.listdir(HERE)
             if os.path.isdir(os.path.join(HERE, folder))
             for file in os.listdir(os.path.join(HERE, folder)) if file.endswith("_main.txt")]
    return sorted(found)


def text_of(program):
    with open(os.path.join(HERE, program + "_main.txt"), encoding="utf-8") as it:
        return it.read()


def stands_on(text):
    """Returns the crates that a program names, and those below them, lowest first; then those of
    the kit that it names."""
    known = repository.crates()
    used = set(re.findall(r"^\s*use ([a-z]\w*)::", text, re.M))
    named = {it for it in re.findall(r"\b(\w+)(?:::|\.)", text) if it in known} | used - {"std", "crate"}
    own = [it for it in named if it in known]
    wanted = {*own, *repository.below(own)}
    return [it for it in repository.lowest_first(known) if it in wanted] + sorted(named - set(own))
