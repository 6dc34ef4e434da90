"""Programs that are built without their proofs, each once."""
import os
import shutil
import tempfile
import threading

from tools.end_to_end import audits
from tools import repository, unproved

# Those that run longer than it takes to optimize them.
OPTIMIZED = ("craq_part_tests",)
# Programs of changed sources: the crate, and its changes: a file of crates/, a text in it, and the text
# that replaces it. One makes fewer calls, the other audits that do not fit.
CHANGED = {
    "craq_thread_tests": ("craq_thread_tests",
                          [("craq_thread_tests/src/changes.rt", "const CALLS: u64 = 2500;",
                            "const CALLS: u64 = 100;")]),
    audits.PROGRAM: ("craqd", audits.CHANGES),
}


def change(folder, file, old, new):
    """Writes the new text into a file of that folder for the old one, which stands there once."""
    with open(f"{folder}/{file}", "r+", encoding="utf-8") as it:
        text = it.read()
        if text.count(old) != 1:
            raise unproved.Unbuilt(f"{file} has {text.count(old)} times {old!r}")
        it.seek(0)
        it.write(text.replace(old, new))
        it.truncate()


def built(name, path):
    """Builds a program, from a copy of the sources where these are changed."""
    with tempfile.TemporaryDirectory(prefix="quick-") as room:
        crate = repository.path("crates", name)
        if name in CHANGED:
            of, changes = CHANGED[name]
            shutil.copytree(repository.path("crates"), f"{room}/crates", ignore=shutil.ignore_patterns("out"))
            for it in "crates.txt", "HANDLES":
                shutil.copy2(repository.path(it), room)
            for it in changes:
                change(f"{room}/crates", *it)
            crate = f"{room}/crates/{of}"
        unproved.built_alone(crate, path, name in OPTIMIZED)


class Programs:
    """The programs in a folder: one that is there is taken as it is, and any other is built there
    when it is first asked for."""

    def __init__(self, folder):
        os.makedirs(folder, exist_ok=True)
        self.folder, self.lacking = folder, set()
        self.locks = {name: threading.Lock() for name in {*repository.crates(), *CHANGED}}

    def of(self, checks, name):
        """Returns the path of a program, or None if it cannot be built, which is a check that
        failed, once."""
        path = os.path.join(self.folder, name)
        with self.locks[name]:
            if not os.path.exists(path) and name not in self.lacking:
                try:
                    built(name, path)
                except unproved.Unbuilt as why:
                    self.lacking.add(name)
                    checks.that(False, f"{name} cannot be built: {why}")
        return None if name in self.lacking else path

    def all_of(self, checks, *names):
        """Returns the paths of some programs, or None if one of them cannot be built."""
        found = [self.of(checks, name) for name in names]
        return None if None in found else found
