"""Stores on threads whose nodes stop, go and join, for the soak: a program that is built without
its proofs, and run.

Its texts are stores/*.txt, no `.rt` files where they stand, since the gate takes each of those for
part of a crate. Here they become a crate, in a copy of the sources that it stands on, which is
built twice (tools/unproved.py). What such a run shows it shows of the library's code as it stands;
that the code meets its contracts the gate proves, and this does not.

The one with checks of addresses runs small stores, one of each form. What it finds is a bad access,
and after the last store each piece of memory that nothing refers to any more. The optimized one
runs large stores for the rest of the time.

A call that has no answer in 30 s is told at once. Then all nodes of its store stop, which ends each
call, and each chain is audited with the steps that it took. A program in which that does not come
to its end either is killed, and keeps no run.
"""
import collections
import glob
import os
import re
import shutil
import signal
import subprocess
import tempfile
import time

from tools import repository, unproved

TEXTS = os.path.join(os.path.dirname(os.path.realpath(__file__)), "stores")
NAME, KIT = "craq_soak", ("rand_core", "rand_pcg")
OWN = ("craq_names", "craq_commands", "craq_model", "craq_runs", "craq_compact_history", "craq_seat",
       "craq_audit", "craq_place", "craq_workers")
CHAINS = 64
# Number of clients of a store, and of calls of each: of the small stores, and of the large ones.
SMALL, LARGE = (8, 250), (32, 3_125)
# Seconds that the last store may take beside the time that it is given.
MORE = 600
# The checks also look for memory that is lost. Where threads keep no cache of what they free, the C
# library gives most of it back.
LEAKS, GIVES_BACK = {"ASAN_OPTIONS": "detect_leaks=1"}, {"GLIBC_TUNABLES": "glibc.malloc.tcache_count=0"}
# Of how many stores one after another the least memory after each counts, and how many MiB more the
# last may have than the first.
TURN, GROWTH = 4, 24
COUNTED = "answered refused repeated stops joins lost twice late merged".split()
Store = collections.namedtuple("Store", ["seed", *COUNTED, "kib", "threads"])
TOLD = re.compile(r"store (\d+): " + ", ".join(rf"(\d+) {it}" for it in COUNTED)
                  + r"; (\d+) KiB, (\d+) threads")


def copied(room, crate):
    """Copies a crate."""
    here, there = repository.path("crates", crate), os.path.join(room, "crates", crate)
    for part in "src", "specs", "proofs":
        if os.path.isdir(f"{here}/{part}"):
            shutil.copytree(f"{here}/{part}", f"{there}/{part}")


def made(room, name, texts, own, kit=()):
    """Makes the crate of this name and these texts in that folder, with the crates that it stands
    on. Returns its own folder."""
    known = repository.crates()
    below = [it for it in repository.lowest_first(known) if it in {*own, *repository.below(own)}]
    for crate in below:
        copied(room, crate)
    folder = os.path.join(room, "crates", name)
    os.makedirs(f"{folder}/src")
    for text in os.listdir(texts):
        shutil.copyfile(os.path.join(texts, text), f"{folder}/src/{text.removesuffix('.txt')}.rt")
    with open(f"{room}/crates.txt", "w", encoding="utf-8") as it:
        it.writelines(f"{crate}: {' '.join(known[crate])}\n" for crate in below)
        it.write(f"{name}: {' '.join([*own, *kit])}\n")
    shutil.copy2(repository.path("HANDLES"), room)
    return folder


def soaked(checks, program, seconds, seed, file, length, env):
    """Runs stores with a program for `seconds` seconds, from a seed on, and returns them. A fault that
    the program finds is a check that failed."""
    words = [program, *map(str, (int(seconds), seed, file, *length))]
    process = subprocess.Popen(words, stdin=subprocess.DEVNULL, stdout=subprocess.PIPE,
                               stderr=subprocess.PIPE, text=True, errors="replace",
                               env={**os.environ, **env})
    try:
        out, err = process.communicate(timeout=seconds + MORE)
    except subprocess.TimeoutExpired:
        process.kill()
        out, err = process.communicate()
        err += f"\nit did not end within {seconds + MORE:.0f} s"
    found = [Store(*map(int, it.groups())) for it in map(TOLD.fullmatch, out.splitlines()) if it]
    other = "".join(f"{it}\n" for it in out.splitlines() if not TOLD.fullmatch(it))
    how = signal.Signals(-process.returncode).name if process.returncode < 0 else process.returncode
    kept = sorted(glob.glob(f"{glob.escape(file)}[0-9]*.script"))
    checks.that((how, other, err) == (0, "", ""),
                f"stores on threads from seed {seed} on: status {how}: {other}{err}"[:3000] + f"kept: {kept}")
    for it in found:
        checks.same(f"threads that are left after store {it.seed}", it.threads, 1)
        checks.same(f"chains of store {it.seed} whose audit is merged", it.merged, CHAINS)
        checks.that(min(it.answered, it.repeated, it.stops, it.joins, it.lost, it.twice) > 0,
                    f"store {it.seed} did nothing: {it}")
    return found


def counted(found):
    """Returns all counts of some stores together."""
    return collections.Counter({name: sum(getattr(it, name) for it in found) for name in COUNTED})


def in_words(found):
    """Returns the counts of some stores in words."""
    counts = counted(found)
    return (f"{len(found)} stores, {counts['answered']} calls answered, {counts['refused']} refused, "
            f"{counts['repeated']} updates repeated, "
            f"{counts['stops']} stops, {counts['joins']} joins, {counts['lost']} messages lost, "
            f"{counts['twice']} that came twice, {counts['late']} batches late, "
            f"{counts['merged']} audits merged, {min((it.kib for it in found), default=0) // 1024} to "
            f"{max((it.kib for it in found), default=0) // 1024} MiB after a store")


def looked_at(checks, found):
    """Checks that the memory of the process is back after the stores, which need a hundred times
    what may be added."""
    least = [min(it.kib for it in part) // 1024 for part in (found[:TURN], found[-TURN:])]
    checks.that(least[1] <= least[0] + GROWTH, f"memory grows from store to store, from {least[0]} to "
                f"{least[1]} MiB: {[it.kib for it in found]} KiB")


def tried(checks, seconds):
    """Builds and runs both programs. Returns the counts, and what was tried, in words."""
    began, seed, folder = time.monotonic(), int(time.time()), tempfile.mkdtemp(prefix="hostile-soak-")
    with tempfile.TemporaryDirectory(prefix="stores-") as room:
        try:
            fast, checked = unproved.built(made(room, NAME, TEXTS, OWN, KIT), os.path.join(room, NAME))
        except unproved.Unbuilt as why:
            checks.that(False, f"stores on threads cannot be built: {why}")
            return collections.Counter(), "stores on threads could not be built"
        ready = time.monotonic()
        small = soaked(checks, checked, 0, seed, f"{folder}/checked-", SMALL, LEAKS)
        large = soaked(checks, fast, max(0, ready + seconds - time.monotonic()), seed, f"{folder}/", LARGE,
                       GIVES_BACK)
    if large:
        looked_at(checks, large)
    if not os.listdir(folder):
        os.rmdir(folder)
    words = (f"stores without proofs from seed {seed} on, built in {ready - began:.0f} s: with checks of "
             f"addresses "
             f"{in_words(small)}; optimized {in_words(large)}")
    return counted([*small, *large]), words
