"""Tests one crate: its proof, what it prints where it is a program, its edits, and apart from them
those of wrong/."""
import os
import shutil
import subprocess
import sys
import tempfile

from tools import repository

PATIENCE = 120


def ran(words, where):
    """Runs a command, passing on what it says, and tells whether it ended well."""
    sys.stdout.flush()
    return subprocess.run(words, cwd=where).returncode == 0


def words_of(name):
    """Returns the arguments of a program, a line each in its file args."""
    file = repository.path("crates", name, "args")
    return repository.text_of(file).splitlines() if os.path.isfile(file) else []


def built(name):
    """Proves and builds a program anew, and tells where it is; None where it could not be built."""
    program = repository.path("crates", name, "out", name)
    if os.path.exists(program):
        os.remove(program)
    subprocess.run(["rt", "run", "--", *words_of(name)], cwd=repository.path("crates", name),
                   stdin=subprocess.DEVNULL, stdout=subprocess.DEVNULL)
    return program if os.path.exists(program) else None


def prints_its_file(name):
    """Returns whether the program prints the text of its file stdout, in a folder with its data, and
    ends with the right status."""
    program = built(name)
    if not program:
        return False
    with tempfile.TemporaryDirectory() as room:
        data = repository.path("crates", name, "data")
        if os.path.isdir(data):
            shutil.copytree(data, room, dirs_exist_ok=True)
        it = subprocess.run([program, *words_of(name)], input=repository.file_of(name, "stdin"), cwd=room,
                            stdout=subprocess.PIPE, timeout=PATIENCE)
    return (it.returncode, it.stdout) == (int(repository.file_of(name, "status", b"0")),
                                          repository.file_of(name, "stdout"))


def steps(name):
    """Returns the tests of a crate: the name of each, and a call that returns whether it passes."""
    top, folder = repository.TOP, repository.path("crates", name)
    found = [("proof", lambda: ran(["rt", "check"], folder))]
    if repository.is_program(name):
        found.append(("output", lambda: prints_its_file(name)))
    if repository.edits_in(name, "must-fail"):
        found.append(("edits of must-fail/", lambda: ran(["rt", "must-fail", name], top)))
    if repository.edits_in(name, "wrong"):
        found.append(("edits of wrong/, which the gate does not try",
                      lambda: ran([repository.path("refuse"), name], top)))
    return found


def test(names):
    """Tests these crates, one after another, and gives the status. Where a crate is not proved
    nothing else of it is tried."""
    unknown = [name for name in names if name not in repository.crates()]
    if unknown:
        print(f"test: crates.txt has no crate {unknown[0]}", file=sys.stderr)
        return 2
    failed, passed = [], 0
    for name in names:
        for what, is_well in steps(name):
            print(f"== {name}: {what}", flush=True)
            if is_well():
                passed += 1
                continue
            failed.append(f"{name} ({what})")
            if what == "proof":
                break
    for it in failed:
        print(f"FAILED: {it}")
    print(f"{passed} passed, {len(failed)} failed")
    return 1 if failed else 0
