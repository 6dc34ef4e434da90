"""Proves and builds a program of benchmarks/, or checks that the programs still fit their crates.

    benchmarks/build PROGRAM OUT
        proves and builds benchmarks/PROGRAM_main.txt, for example node/measure, and puts it at OUT
    benchmarks/build --try [PROGRAM..]
        runs these, or all, small and without proofs; the last line is 'N passed, M failed'

The programs are not stored as `.rt` files, since CI takes each of those for part of a crate. Here
each becomes a crate of its own in a copy of the sources, and reuses the cached results of earlier
checks. It depends on the crates that it names and on those below them. `./test --quick` tries them
all.
"""
import os
import shutil
import subprocess
import sys
import tempfile
import threading
import time

from tools import repository, unproved
from tools.benched import programs, stands_on, text_of

# The words with which each is tried, and the seconds that it may take.
SMALL, SECONDS = {"joins/join": ["100"], "node/measure": ["single", "100"], "objects/table": ["100"],
                  "wire/proved": ["10"]}, 300


def made(room, program):
    """Makes a crate of the program, in a copy of the crates below it. Returns its folder."""
    crates = stands_on(text_of(program))
    name = program.replace("/", "_") + "_bench"
    lines = [f"{it}: {' '.join(below)}\n" for it, below in repository.crates().items() if it in crates]
    for it in crates:
        here, there = repository.path("crates", it), os.path.join(room, "crates", it)
        if os.path.isdir(here):
            os.makedirs(there)
            os.makedirs(f"{here}/out", exist_ok=True)
            os.symlink(f"{here}/out", f"{there}/out")
            for part in "src", "specs", "proofs":
                if os.path.isdir(f"{here}/{part}"):
                    shutil.copytree(f"{here}/{part}", f"{there}/{part}")
    folder = os.path.join(room, "crates", name)
    os.makedirs(f"{folder}/src")
    with open(f"{folder}/src/main.rt", "w", encoding="utf-8") as it:
        it.write(text_of(program))
    with open(f"{room}/crates.txt", "w", encoding="utf-8") as it:
        it.writelines([*lines, f"{name}: {' '.join(crates)}\n"])
    shutil.copy2(repository.path("HANDLES"), room)
    return folder


def told(what, began, ended):
    """Shows the elapsed time, if standard error is a terminal."""
    while sys.stderr.isatty() and not ended.wait(1):
        sys.stderr.write(f"\r{what}, {time.time() - began:.0f} s\r")


def ran(what, words, folder):
    """Runs rt in a folder. Returns its status and its output."""
    ended = threading.Event()
    threading.Thread(target=told, args=(what, time.time(), ended), daemon=True).start()
    it = subprocess.run(words, cwd=folder, stdin=subprocess.DEVNULL, stdout=subprocess.PIPE,
                        stderr=subprocess.STDOUT, text=True, errors="replace")
    ended.set()
    return it.returncode, it.stdout


def build(program, out):
    """Proves and builds a program. Returns the exit status."""
    out = os.path.realpath(out)
    with tempfile.TemporaryDirectory(prefix="bench-") as room:
        folder = made(room, program)
        _, said = ran(f"proving {program}", ["rt", "run", "--", *SMALL[program]], folder)
        program_made = os.path.join(folder, "out", os.path.basename(folder))
        if not os.path.exists(program_made):
            print(said[-3000:], file=sys.stderr)
            return 1
        shutil.copy2(program_made, out)
    return 0


def fault_of(program):
    """Returns why a program does not run, built without proofs and small; None if it runs."""
    with tempfile.TemporaryDirectory(prefix="bench-") as room:
        try:
            found = unproved.built_alone(made(room, program), os.path.join(room, "program"))
        except unproved.Unbuilt as why:
            return why
        ran = subprocess.run([found, *SMALL[program]], stdin=subprocess.DEVNULL, stdout=subprocess.DEVNULL,
                             stderr=subprocess.PIPE, timeout=SECONDS)
    if ran.returncode == 0:
        return None
    return f"status {ran.returncode}: {ran.stderr.decode(errors='replace')[-1500:]}"


def try_all(names):
    """Runs programs small and without proofs. Returns the exit status."""
    failed = 0
    for program in names:
        fault = fault_of(program)
        failed += bool(fault)
        print(f"{program}: {f'FAILED: {fault}' if fault else 'runs'}", flush=True)
    print(f"{len(names) - failed} passed, {failed} failed")
    return 1 if failed else 0


def main():
    words = sys.argv[1:]
    if words[:1] == ["--try"] and set(words[1:]) <= set(programs()):
        return try_all(words[1:] or programs())
    if len(words) == 2 and words[0] in programs():
        return build(*words)
    print(__doc__ + "\nThe programs: " + " ".join(programs()), file=sys.stderr)
    return 2


if __name__ == "__main__":
    sys.exit(main())
