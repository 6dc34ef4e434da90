#!/usr/bin/env python3
"""Builds a program without its proofs, to run it much: optimized, and once more with checks of addresses.

    tools/unproved.py FOLDER OUT          the program of the crate in that folder: OUT, and OUT.checked
    tools/unproved.py --one FOLDER OUT    OUT alone, optimized, without checks of addresses

`rt try` builds without proofs, but does not optimize, and keeps no program. Here it runs out of a
copy of the kit. The copy is links, except that this script replaces the compiler and the linker of
its toolchain, and calls them. Of the program's own code they make two programs,
both of which are kept; or one without checks of addresses, for `./test --quick`. What is built has
the tests that `rt try` puts in, as of an index out of bounds.
"""
import os
import shlex
import shutil
import subprocess
import sys
import tempfile

# The words of the compiler and of the linker that this script looks for. Only the program's own
# code is compiled with checks.
CHECKS, PLAIN = "-fsanitize=address", "-O0"
# The archive of the checks stands between these; the program's own code is the first file, and the
# program has this name.
FROM, TO, CODE, PROGRAM = "--whole-archive", "--no-whole-archive", "input-0", "program"
# Optimization of each of the two: the one with checks is optimized somewhat.
FAST, CHECKED = "-O2", "-O1"
# The commands of this script that replace the compiler and the linker: where both programs are made,
# and where one without checks is, optimized or as it is.
TOOLS = {"clang": "compiled", "ld.lld": "linked"}
ONE = {True: {"clang": "fast_compiled", "ld.lld": "alone_linked"},
       False: {"clang": "soon_compiled", "ld.lld": "alone_linked"}}
# A program that does nothing.
NOTHING = os.path.realpath("/bin/true")


class Unbuilt(Exception):
    """Why there is no program."""


def with_links(there, here, but=()):
    """Makes a folder of links to what another holds, except these."""
    os.makedirs(there)
    for name in os.listdir(here):
        if name not in but:
            os.symlink(f"{here}/{name}", f"{there}/{name}")


def kit_of(room, out, tools):
    """Makes a copy of the kit in which this script replaces the compiler and the linker, and makes
    programs. Returns its rt."""
    found = shutil.which("rt")
    if not found:
        raise Unbuilt("there is no rt on the path")
    here = os.path.dirname(os.path.dirname(os.path.realpath(found)))
    lacking = [it for it in ("bin/rt", "bin/rtlib.py", *(f"toolchain/bin/{it}" for it in tools))
               if not os.path.isfile(f"{here}/{it}")]
    if lacking:
        raise Unbuilt(f"the kit in {here} has no {lacking[0]}: it is another one than tools/unproved.py was "
                      f"written for")
    with_links(f"{room}/kit", here, ("bin", "toolchain"))
    # These look for the kit from where they stand, also through links. A check would only tell of
    # reserved names.
    with_links(f"{room}/kit/bin", f"{here}/bin", ("rt", "rtlib.py", "rattle"))
    for name in "rt", "rtlib.py":
        shutil.copy2(f"{here}/bin/{name}", f"{room}/kit/bin")
    os.symlink(NOTHING, f"{room}/kit/bin/rattle")
    with_links(f"{room}/kit/toolchain", f"{here}/toolchain", ("bin",))
    with_links(f"{room}/kit/toolchain/bin", f"{here}/toolchain/bin", tools)
    for name, does in tools.items():
        words = [sys.executable, os.path.realpath(__file__), does, out, f"{here}/toolchain/bin/{name}"]
        with open(f"{room}/kit/toolchain/bin/{name}", "w", encoding="utf-8", opener=lambda path,
                  flags: os.open(path, flags, 0o700)) as it:
            it.write(f'#!/bin/sh\nexec {shlex.join(words)} "$@"\n')
    return f"{room}/kit/bin/rt"


def compiled(out, tool, words):
    """Stands for the compiler: the program's own code is compiled optimized too, without checks."""
    if CHECKS not in words:
        return subprocess.call([tool, *words])
    status = subprocess.call([tool, *(CHECKED if it == PLAIN else it for it in words)])
    fast = [FAST if it == PLAIN else it for it in words if it != CHECKS]
    fast[fast.index("-o") + 1] = f"{out}.o"
    return status or subprocess.call([tool, *fast])


def linked(out, tool, words):
    """Stands for the linker: makes both programs, and keeps them."""
    status = subprocess.call([tool, *words])
    fast = words[:words.index(FROM)] + words[words.index(TO) + 1:]
    fast[fast.index(CODE)] = f"{out}.o"
    fast[fast.index("-o") + 1] = out
    status = status or subprocess.call([tool, *fast])
    if not status:
        shutil.copy2(PROGRAM, f"{out}.checked")
    return status


def fast_compiled(_, tool, words):
    """Stands for the compiler: the program's own code is optimized, without checks."""
    return subprocess.call([tool,
                            *(FAST if it == PLAIN and CHECKS in words else it for it in words
                              if it != CHECKS)])


def soon_compiled(_, tool, words):
    """Stands for the compiler: nothing is optimized or checked, which takes least time."""
    return subprocess.call([tool, *(it for it in words if it != CHECKS)])


def alone_linked(out, tool, words):
    """Stands for the linker: makes the program without the archive of the checks, and keeps it.
    What `rt try` then runs does nothing."""
    status = subprocess.call([tool, *words[:words.index(FROM)], *words[words.index(TO) + 1:]])
    if not status:
        shutil.move(PROGRAM, out)
        shutil.copy2(NOTHING, PROGRAM)
    return status


def built_alone(folder, out, is_fast=False):
    """Returns the program of the crate in that folder without checks of addresses, optimized or
    not. Raises `Unbuilt` if that fails."""
    made_by(ONE[is_fast], folder, out, (out,))
    return out


def built(folder, out):
    """Makes the program of the crate in that folder, optimized, and with checks of addresses as
    OUT.checked. Raises `Unbuilt` if that fails."""
    return made_by(TOOLS, folder, out, (out, f"{out}.checked"))


def made_by(tools, folder, out, made):
    """Returns the programs that these tools make of the crate in that folder."""
    for it in made:
        if os.path.exists(it):
            os.unlink(it)
    with tempfile.TemporaryDirectory(prefix="unproved-") as room:
        words = [kit_of(room, out, tools), "try", "--steps", "1", "--", "--help"]
        ran = subprocess.run(words, cwd=folder, stdin=subprocess.DEVNULL, capture_output=True, text=True,
                             errors="replace")
    if os.path.exists(f"{out}.o"):
        os.unlink(f"{out}.o")
    if not all(os.access(it, os.X_OK) for it in made) or "run=ended" not in ran.stderr:
        raise Unbuilt(f"rt try in {folder} ended with status {ran.returncode}: {ran.stderr[-1500:]}")
    return made


def main(words):
    does = {it.__name__: it for it in (compiled, linked, fast_compiled, soon_compiled, alone_linked)}
    if len(words) > 3 and words[0] in does:
        return does[words[0]](words[1], words[2], words[3:])
    is_one = words[:1] == ["--one"]
    if len(words) != 2 + is_one:
        print(__doc__.partition("\n\n")[2], file=sys.stderr)
        return 2
    folder, out = words[is_one:]
    out = os.path.realpath(out)
    try:
        print("built", *([built_alone(folder, out, True)] if is_one else built(folder, out)))
    except Unbuilt as why:
        print(f"unproved: {why}", file=sys.stderr)
        return 1
    return 0


if __name__ == "__main__":
    sys.exit(main(sys.argv[1:]))
