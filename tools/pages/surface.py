"""Compares the public calls and types of the crates with the table tools/pages/surface.txt."""
import os
import re
from typing import NamedTuple

from tools import repository

TABLE = "tools/pages/surface.txt"
# An impl or a trait, up to its brace; a function, up to its generic parameters or its arguments; a
# struct or an enum.
BLOCK = re.compile(r"\b(impl|trait)\b([^{;]*)\{")
FUNCTION = re.compile(r"(\bpub )?(?:const )?\bfn (\w+)")
RESULT = re.compile(r"\s*->\s*(.*?)(?=\s*(?:[{;]|\bwhere\b|\brequires\b|\bensures\b))", re.S)
TYPE = re.compile(r"\bpub (struct|enum) (\w+)")
EXPORT = re.compile(r"\bpub use ([^;]*);")
# An argument that callers of the specification do not write: the allocator, and the runtime.
UNWRITTEN = re.compile(r"rt: |alloc: Global$|ghost ")


class Source(NamedTuple):
    """A crate's public items: the signatures of each call, by name, and the fields or variants of
    each type."""

    calls: dict
    types: dict


def end_of(text, at):
    """Returns the place after the bracket that closes the one at this place."""
    pairs, depth = {"(": ")", "{": "}", "<": ">", "[": "]"}, 0
    opening, closing = text[at], pairs[text[at]]
    while at < len(text):
        if text[at] == opening:
            depth += 1
        elif text[at] == closing and text[at - 1:at + 1] not in ("->", "=>"):
            depth -= 1
        at += 1
        if not depth:
            break
    return at


def parted(text):
    """Returns the parts of a list between its outermost commas."""
    found, at, begin = [], 0, 0
    while at < len(text):
        if text[at] in "({[<":
            at = end_of(text, at)
        elif text[at] == ",":
            found.append(text[begin:at])
            begin = at = at + 1
        else:
            at += 1
    return [it.strip() for it in (*found, text[begin:]) if it.strip()]


def plain(written):
    """Returns a type without lifetimes and line breaks, with Memory for AllocError."""
    text = re.sub(r"<'\w+>", "", " ".join(written.split()))
    text = re.sub(r"'\w+,? ?", "", text)
    return re.sub(r",\s*([)>])", r"\1", text).replace("AllocError", "Memory")


def signature(arguments, result):
    """Returns the types of a call: '(A, B) -> C', without the arguments that the table leaves out."""
    kept = [it for it in parted(arguments) if not UNWRITTEN.match(it)]
    types = [it if re.fullmatch(r"(&('\w+ )?(mut )?)?self", it) else it.partition(":")[2] or it
             for it in kept]
    return f"({', '.join(plain(it) for it in types)})" + (f" -> {plain(result)}" if result else "")


def name_of_block(kind, head):
    """Returns the type or trait whose items a block has, or None for the implementation of a trait."""
    if kind == "impl" and head.startswith("<"):
        head = head[end_of(head, 0):]
    head = head.partition("where")[0].strip()
    return None if kind == "impl" and " for " in head else re.match(r"\w*", head)[0]


def blocks(text):
    """Returns the begin, the end, the kind and the name of each impl and trait."""
    return [(it.start(), end_of(text, it.end() - 1), it[1], name_of_block(it[1], it[2].lstrip()))
            for it in BLOCK.finditer(text)]


def calls_in(text):
    """Returns each public call of a file as its name, with the type before it, and its signature."""
    found, within = [], blocks(text)
    for it in FUNCTION.finditer(text):
        block = next((one for one in within if one[0] < it.start() < one[1]), None)
        at = end_of(text, it.end()) if text[it.end()] == "<" else it.end()
        if text[at] != "(" or not (it[1] or block and block[2] == "trait") or block and not block[3]:
            continue
        end = end_of(text, at)
        result = RESULT.match(text, end)
        name = f"{block[3]}::{it[2]}" if block else it[2]
        found.append((name, signature(text[at + 1:end - 1], result[1] if result else "")))
    return found


def parts_of(kind, body):
    """Returns the names of the public fields of a struct, or of the variants of an enum."""
    body = re.sub(r"#\[[^\]]*\]", "", body)
    names = [re.match(r"pub (\w+)\s*:" if kind == "struct" else r"(\w+)", it) for it in parted(body)]
    return [it[1] for it in names if it]


def types_in(text):
    """Returns each public struct and enum of a file with its public fields or its variants."""
    found = []
    for it in TYPE.finditer(text):
        brace = re.compile(r"[^{;(]*\{").match(text, it.end())
        body = text[brace.end():end_of(text, brace.end() - 1) - 1] if brace else ""
        found.append((it[2], parts_of(it[1], body)))
    return found + [(it[1], []) for it in re.finditer(r"\bpub (?:trait|type) (\w+)", text)]


def exported(crate, files):
    """Returns the names that a crate's root makes public."""
    root = files.get("lib.rt", "")
    names = {it for one in EXPORT.findall(root) for it in re.findall(r"\w+", one)}
    for module in re.findall(r"\bpub mod (\w+)", root):
        names |= {name.rpartition("::")[0] or name for name, _ in calls_in(files.get(f"{module}.rt", ""))}
    return names | set(re.findall(r"\bpub (?:struct|enum|trait|type|fn) (\w+)", root))


def source_of(crate):
    """Returns the public items of a crate."""
    folder, files = repository.path("crates", crate, "src"), {}
    for at, _, names in os.walk(folder):
        for name in names:
            text = repository.text_of(at, name)
            files[os.path.relpath(os.path.join(at, name), folder)] = re.sub(r"//[^\n]*", "", text)
    public, found = exported(crate, files), Source({}, {})
    for text in files.values():
        for name, types in calls_in(text):
            if (name.partition("::")[0]) in public:
                found.calls.setdefault(name, []).append(types)
        found.types.update((name, parts) for name, parts in types_in(text) if name in public)
    return found


def rows():
    """Returns the rows of the table: each is the crate of its heading and the text of its line."""
    found, crate = [], None
    for line in repository.text_of(TABLE).splitlines():
        if head := re.fullmatch(r"\[(\w+)\]", line):
            crate = head[1]
        elif line and not line.startswith("#"):
            found.append((crate, line))
    return found


def any_type(depth):
    """Returns a pattern of one type: it has no comma outside brackets, which nest at most this deep."""
    inside = r"[^<>()\[\]]"
    for _ in range(depth - 1):
        inside = rf"(?:[^<>()\[\]]|[<(\[]{inside}*[>)\]])"
    return rf"(?:[^,<>()\[\]]|[<(\[]{inside}*[>)\]])+"


def is_like(found, wanted):
    """Reports whether a signature is the wanted one, in which '_' stands for any one type."""
    found, wanted = (it.replace("->", "→") for it in (found, wanted))
    parts = re.split(r"(?<![\w&])_(?!\w)", wanted)
    return bool(re.fullmatch(any_type(5).join(map(re.escape, parts)), found))


def call_is_there(checks, crate, line, sources):
    """Compares a row 'Type::name(A, B) -> C' with the calls of that name in every crate."""
    name, _, rest = line.partition("(")
    wanted = "(" + rest
    found = [types for it in sources.values() for types in it.calls.get(name, [])]
    there = f"is {' and '.join(found)}" if found else "is in no crate"
    checks.that(any(is_like(it, wanted) for it in found), f"{TABLE}, {crate}: {name}{wanted} {there}")


def type_is_there(checks, crate, line, sources):
    """Compares a row 'type Name: PART, PART' with the types of that name in every crate."""
    name, _, rest = line.removeprefix("type ").partition(":")
    wanted = set(re.findall(r"\w+", rest))
    found = [set(it.types[name]) for it in sources.values() if name in it.types]
    lacking = min((sorted(wanted - it) for it in found), key=len, default=["the type, which no crate has"])
    checks.that(not lacking, f"{TABLE}, {crate}: {name} lacks {', '.join(lacking)}")


def surface(checks):
    """Finds each public call and type of the table in the sources, with its signature, fields or variants."""
    sources = {crate: source_of(crate) for crate in repository.crates()}
    table = rows()
    checks.that(len(table) > 150, f"{TABLE} has {len(table)} rows")
    for crate, line in table:
        check = type_is_there if line.startswith("type ") else call_is_there
        check(checks, crate, line, sources)
