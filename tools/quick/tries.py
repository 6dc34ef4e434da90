"""Runs programs and scripts, and looks at what they print."""
import difflib
import os
import shutil
import subprocess
import tempfile

from tools import repository

# Seconds that a program may take, also where many others run.
SECONDS = 900
# The tests on threads are smaller here: the words of the program, and each text of its file stdout with
# the one that then replaces it, three times. The calls of one case are fewer as it is built
# (programs.py).
SMALLER = {
    "craq_thread_tests": (
        ["20", "2", "200"],
        {b"10000 calls come back, 5000 of them puts": b"400 calls come back, 200 of them puts",
         b"turns 100:": b"turns 20:", b"ask, times 20:": b"ask, times 2:",
         b"at least 2000:": b"at least 200:"},
    ),
}


def passes(checks, *words):
    """Checks that a script of the repository ends well, and returns its last line."""
    ran = subprocess.run(words, stdin=subprocess.DEVNULL, stdout=subprocess.PIPE, stderr=subprocess.STDOUT,
                         text=True, errors="replace")
    checks.that(ran.returncode == 0, f"{' '.join(words)}: {ran.stdout[-3000:]}")
    return ran.stdout.strip().rpartition("\n")[2]


def ran(name, program, words):
    """Runs a program as the gate does, in a new folder with the files of data/; what it printed,
    and its status."""
    data = repository.path("crates", name, "data")
    with tempfile.TemporaryDirectory(prefix="quick-") as room:
        if os.path.isdir(data):
            shutil.copytree(data, room, dirs_exist_ok=True)
        it = subprocess.run([program, *words], cwd=room, input=repository.file_of(name, "stdin"),
                            stdout=subprocess.PIPE, stderr=subprocess.PIPE,
                            env={}, timeout=SECONDS)
    return it.returncode, it.stdout, it.stderr.decode(errors="replace")


def unlike(found, wanted):
    """Returns the lines of two texts that differ, as difflib prints them."""
    texts = [it.decode(errors="replace").splitlines() for it in (wanted, found)]
    return [it for it in difflib.ndiff(*texts) if not it.startswith("  ")]


def prints_its_file(checks, name, program):
    """Checks that a program prints what its file stdout has, given the words of its file args; or
    less, where it is smaller here."""
    wanted = repository.file_of(name, "stdout")
    words, fewer = SMALLER.get(name, (repository.file_of(name, "args").decode().splitlines(), {}))
    for many, few in fewer.items():
        checks.same(f"how often the stdout of {name} has {many!r}", wanted.count(many), 3)
        wanted = wanted.replace(many, few)
    status, found, errors = ran(name, program, words)
    checks.same(f"lines that {name} prints otherwise", unlike(found, wanted), [])
    checks.same(f"the status of {name}, which told {errors[-300:]!r}", status,
                int(repository.file_of(name, "status", b"0")))
    return f"{len(wanted.splitlines())} lines"
