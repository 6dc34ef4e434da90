"""Reads the definitions of the crates: each with its comment, its lines, and those that it uses.

A module is a file `crates/CRATE/specs/MODULE.antt`; its first comment says what it defines. A
definition begins with `abbrev`, `unfoldable`, `record` or `data` at the left edge and ends before
the next one. Its own comment stands right above it. `reach` follows names from a contract: through
the imports of its file, the definitions that it cites, and the declarations of the types that they
name (`declared`, in `crates/CRATE/src`).
"""
import functools
import re
from typing import NamedTuple

from tools import repository

BEGINS = re.compile(r"(?:(?:abbrev|unfoldable) )?(?:pub )?(?:(?:record|data) )?(\S+)")
KEYWORDS = ("abbrev ", "unfoldable ", "pub record ", "pub data ", "record ", "data ")
USE = re.compile(r"^(?:ghost )?use Rattle\.([\w.]+?)(?:\.\{([^}]*)\})?(?: as (\w+))?;?$")
TYPE = re.compile(r"^pub (?:struct|enum|type) (\w+)", re.M)
# A name with one of a module before it, as `masters.config`; a name; an operator.
WORD = re.compile(r"\w+\.\w+|\w+|[^\w\s().,;:{}]+")


class Definition(NamedTuple):
    """A definition, or the declaration of a type: the module that has it and its text."""

    module: str
    name: str
    comment: str
    text: str

    @property
    def lines(self):
        """The number of its lines that are neither empty nor a comment."""
        lines = map(str.strip, self.text.splitlines())
        return sum(1 for it in lines if it and not it.startswith(("--", "//")))


class Module(NamedTuple):
    """A file with definitions: its crate, its name, its first comment, imports and definitions."""

    crate: str
    name: str
    comment: str
    imports: dict
    definitions: dict

    @property
    def lines(self):
        return sum(it.lines for it in self.definitions.values())


def first_sentence(comment):
    """Returns the first sentence of a comment, as a sentence of its own."""
    text = re.split(r"\.(?: |$)", " ".join(comment.split()))[0].strip()
    return f"{text[:1].upper()}{text[1:]}." if text else ""


def imports_of(text):
    """Returns what the names of a file mean: for each the path of its module, and its name there."""
    found = {}
    for line in text.splitlines():
        if it := USE.match(line):
            path, names, alias = it[1], it[2], it[3]
            if alias:
                found[alias] = (path, alias)
            for name in (names or "").split(","):
                said, _, given = name.strip().partition(" as ")
                found[given or said] = (path, said)
    return found


def comment_above(lines, at):
    """Returns the comment that ends right above a line. A heading (`-- ----`) is none."""
    found = []
    while at > 0 and lines[at - 1].startswith("--") and not lines[at - 1].startswith("-- --"):
        at -= 1
        found.insert(0, lines[at].lstrip("- "))
    return " ".join(found)


def module_of(crate, name):
    """Returns a module of the definitions of a crate."""
    text = repository.text_of("crates", crate, "specs", f"{name}.antt")
    lines = text.splitlines()
    head = [it.lstrip("- ") for it in re.match(r"(?:--.*\n)*", text)[0].splitlines()]
    starts = [at for at, line in enumerate(lines) if line.startswith(KEYWORDS)]
    found = {}
    for at, after in zip(starts, [*starts[1:], len(lines)]):
        own = BEGINS.match(lines[at])[1]
        found[own] = Definition(f"{crate}/{name}", own, comment_above(lines, at), "\n".join(lines[at:after]))
    return Module(crate, name, " ".join(head), imports_of(text), found)


@functools.cache
def modules():
    """Returns every module of definitions, by crate and name, in the order of crates.txt and of
    each crate's specs/Lib.antt."""
    found, known = {}, repository.files()
    for crate in repository.crates():
        if (lib := f"crates/{crate}/specs/Lib.antt") in known:
            for name in re.findall(r"pub mod (\w+)", repository.text_of(lib)):
                found[crate, name] = module_of(crate, name)
    return found


@functools.cache
def types():
    """Returns the declarations of public types, by crate and name."""
    found = {}
    for path in repository.files():
        if it := re.fullmatch(r"crates/(\w+)/src/(\w+)\.rt", path):
            text = repository.text_of(path)
            for begin in TYPE.finditer(text):
                own = text[begin.start():].splitlines()
                count = next(at for at, line in enumerate(own)
                             if line.startswith("}") or (at == 0 and line.endswith((";", "}"))))
                body = "\n".join(own[:count + 1])
                found[it[1], begin[1]] = Definition(f"{it[1]}/src/{it[2]}.rt", begin[1], "", body)
    return found


@functools.cache
def places_of_types(crate):
    """Returns the crates in which a name of a type is looked for: the crate itself, then those below it."""
    return [crate, *reversed(repository.below([crate]))]


def type_named(name, crate):
    """Returns the type of this name: that of the crate, or of one below it. None if there is none."""
    for it in places_of_types(crate):
        if (it, name) in types():
            return types()[it, name]
    return None


def meaning(path, name):
    """Returns the definition or type that an import names; None for one of the kit."""
    crate, *parts = path.split(".")
    if parts[:1] != ["specs"] or not crate.startswith("craq"):
        return None
    if parts[1:2] == ["declared"]:
        return types().get((crate, parts[3]))
    it = modules().get((crate, parts[1]))
    return it.definitions.get(name) if it else None


def words_of(text):
    """Returns the names in a text, each once, operators as `◌+◌`; of `a.b` also `a` and `b`."""
    found = {}
    for it in WORD.findall(re.sub(r"--[^\n]*|//[^\n]*", "", text)):
        parts = [it, *it.split(".")] if "." in it else [it if it[0].isalnum() or it[0] == "_" else f"◌{it}◌"]
        found.update(dict.fromkeys(parts))
    return list(found)


def imported(word, imports):
    """Returns the definition or type that a word means by the imports of its file, or None."""
    alias, dot, name = word.partition(".")
    if not dot:
        return meaning(*imports[word]) if word in imports else None
    return meaning(imports[alias][0], name) if alias in imports else None


def named_by(definition):
    """Returns the definitions and types that one names."""
    crate, _, module = definition.module.partition("/")
    words = words_of(definition.text)
    if module.startswith("src/"):
        return [it for word in words if (it := type_named(word, crate))]
    own = modules()[crate, module]
    found = (own.definitions.get(word) or imported(word, own.imports) for word in words)
    return [it for it in found if it]


def contract(path, function):
    """Returns the contract of a function of a file: from its name to its body."""
    text = repository.text_of("crates", path)
    begin = re.search(rf"^\s*(?:pub(?:\(crate\))? )?fn {function}\b", text, re.M)
    rest = text[begin.start():]
    return rest[:re.search(r"^\s*\{|;$", rest, re.M).start()]


@functools.cache
def reach(path, function):
    """Returns all definitions and types that a contract cites, and that those name in turn."""
    imports = imports_of(repository.text_of("crates", path))
    left = [it for word in words_of(contract(path, function)) if (it := imported(word, imports))]
    found = {}
    while left:
        it = left.pop()
        if (it.module, it.name) not in found:
            found[it.module, it.name] = it
            left += named_by(it)
    return found
