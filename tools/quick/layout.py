"""The layout of files and folders, and edits that can be applied."""
import os
import re
import shutil
import subprocess

from tools import repository

PARTS = ("src", "specs", "proofs")
ENDINGS = {"src": ".rt", "specs": ".antt", "proofs": ".antt", "must-fail": ".edit", "wrong": ".edit"}
BESIDE = {*ENDINGS, "out", "data", "stdin", "stdout", "args", "status", "README.md"}


def root_of(name):
    return "src/main.rt" if repository.is_program(name) else "src/lib.rt"


def folders(checks):
    """crates.txt and the folders agree, and each crate has its root file, which begins with what
    the crate is for."""
    known = sorted(repository.crates())
    checks.same("the folders of crates/", sorted(os.listdir(repository.path("crates"))), known)
    for name in known:
        file = repository.path("crates", name, root_of(name))
        if not os.path.isfile(file):
            checks.that(False, f"{name} has no {root_of(name)}")
            continue
        text = repository.text_of(file)
        checks.that(re.match(r"(//!( .+)?\n)+#!\[tactic\(auto\b", text),
                    f"{name}/{root_of(name)} begins with lines '//! ..', and then #![tactic(auto)]")


def stray(checks):
    """No file stands where nothing reads it."""
    for name in repository.crates():
        top = repository.path("crates", name)
        checks.same(f"what stands in crates/{name}", sorted({*os.listdir(top)} - BESIDE), [])
        for part, ending in ENDINGS.items():
            found = [it for _, _, files in os.walk(f"{top}/{part}") for it in files
                     if not it.endswith((ending, ".md"))]
            checks.same(f"files of crates/{name}/{part}", found, [])
        for part in "specs", "proofs":
            listed(checks, name, part)
        modules(checks, name)


def modules(checks, name):
    """The root file names each module beside it, and a module those in the folder of its name."""
    top = repository.path("crates", name)
    for folder, _, files in os.walk(f"{top}/src"):
        is_top = folder == f"{top}/src"
        root = root_of(name) if is_top else f"{os.path.relpath(folder, top)}.rt"
        found = {it.removesuffix(".rt") for it in files
                 if it.endswith(".rt")} - ({"lib", "main"} if is_top else set())
        text = repository.text_of(top, root) if os.path.isfile(f"{top}/{root}") else ""
        named = {*re.findall(r"(?m)^\s*(?:pub(?:\(crate\))? )?mod (\w+);", text)}
        checks.same(f"modules of crates/{name}/{os.path.relpath(folder, top)} that {root} does not name",
                    sorted(found - named), [])


def listed(checks, name, part):
    """Lib.antt names each file beside it."""
    top = repository.path("crates", name, part)
    if os.path.isdir(top):
        found = {it.removesuffix(".antt") for it in os.listdir(top) if it.endswith(".antt")} - {"Lib"}
        text = repository.text_of(top, "Lib.antt") if os.path.isfile(f"{top}/Lib.antt") else ""
        named = {*re.findall(r"(?m)^(?:pub )?mod (\w+)", text)}
        checks.same(f"files of crates/{name}/{part} that Lib.antt does not name", sorted(found - named), [])


def fault_of(name, edit):
    """Returns why an edit cannot be applied, or None: each text after 'old: ' has to stand once in
    its file."""
    file, texts, old, pairs = None, {}, None, 0
    for line in repository.text_of(edit).splitlines():
        word, _, rest = line.partition(":")
        rest = rest.removeprefix(" ")
        if word == "file":
            file = rest.strip()
            if not os.path.isfile(repository.path("crates", name, file)):
                return f"there is no file {file}"
            texts.setdefault(file, repository.text_of("crates", name, file))
        elif word == "old":
            old = rest
        elif word == "new" and file and old:
            if texts[file].count(old) != 1:
                return f"{file} has {texts[file].count(old)} times {old!r}"
            texts[file], old, pairs = texts[file].replace(old, rest), None, pairs + 1
    return None if pairs else "it has no 'file:', 'old:' and 'new:'"


def edits(checks):
    """Each edit can be applied."""
    for name in repository.crates():
        for folder in "must-fail", "wrong":
            for edit in repository.edits_in(name, folder):
                fault = fault_of(name, repository.path("crates", name, folder, f"{edit}.edit"))
                checks.that(not fault, f"crates/{name}/{folder}/{edit}.edit: {fault}")


def formatted(checks, room):
    """rt fmt changes no file of a copy."""
    for name in repository.crates():
        here, there = repository.path("crates", name), os.path.join(room, "crates", name)
        for part in PARTS:
            if os.path.isdir(f"{here}/{part}"):
                shutil.copytree(f"{here}/{part}", f"{there}/{part}")
    shutil.copy2(repository.path("crates.txt"), room)
    for name in repository.crates():
        there = os.path.join(room, "crates", name)
        ran = subprocess.run(["rt", "fmt"], cwd=there, stdout=subprocess.PIPE, stderr=subprocess.STDOUT,
                             text=True, errors="replace")
        checks.that(ran.returncode == 0, f"rt fmt in crates/{name}: {ran.stdout[-300:]}")
        checks.same(f"files of crates/{name} that rt fmt lays out otherwise", changed(name, there), [])


def changed(name, there):
    """Returns the files that differ in a copy of a crate."""
    found = []
    for at, _, files in os.walk(there):
        for file in files:
            inside = os.path.relpath(os.path.join(at, file), there)
            with open(os.path.join(at, file), "rb") as it, open(repository.path("crates", name, inside),
                                                                "rb") as own:
                if it.read() != own.read():
                    found.append(inside)
    return sorted(found)
