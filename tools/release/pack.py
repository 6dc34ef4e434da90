"""Packs an archive of the programs; ./release runs it.

    tools/python tools.release.pack proved|unproved PROGRAMS FOLDER

It prints the name of the archive. Files are in a fixed order and carry the time of the last commit, so
the same programs and sources make the same archive.
"""
import gzip
import hashlib
import io
import os
import re
import shutil
import subprocess
import sys
import tarfile
import tempfile

from tools import repository
from tools.release import helps

PROGRAMS = ("craqd", "craq", "craq_lab")
PAGES = ("GUIDE", "CRAQ", "SERVER", "GUARANTEES", "BYTES", "SCRIPTS", "OPERATIONS")
# Where files of the repository stand in the archive.
COPIED = {
    "LICENSE": "LICENSE", "examples/plan.toml": "etc/jilsdau/plan.toml",
          "tools/release/Containerfile": "Containerfile",
    "tools/release/craqd.service": "lib/systemd/system/craqd.service",
          "tools/release/craqd-in-order": "bin/craqd-in-order",
    "clients/README.md": "clients/README.md", "clients/c/jilsdau.h": "clients/c/jilsdau.h",
          "clients/c/example.c": "clients/c/example.c",
    **{f"docs/use/{it}.md": f"share/doc/jilsdau/{it}.md" for it in PAGES},
}
PYTHON = "clients/python"
# Words of craq that are no lines of its prompt, and lines of the prompt that are no words of craq.
TOOLS = ("shell", "watch", "bench")
PROMPT = ("node", "pass", "history", "help", "quit", "strong", "eventual")
LICENCE = re.compile(r"LICEN[CS]E|COPYING|NOTICE")


class Unpacked(Exception):
    """Why there is no archive."""


def put(folder, name, data, mode=0o644):
    """Writes a file of the archive."""
    file = os.path.join(folder, name)
    os.makedirs(os.path.dirname(file), exist_ok=True)
    with open(file, "wb") as it:
        it.write(data.encode() if isinstance(data, str) else data)
    os.chmod(file, mode)


def copy(folder, here, there):
    """Copies a file into the archive; what can be run there can be run here."""
    with open(here, "rb") as it:
        put(folder, there, it.read(), 0o755 if os.access(here, os.X_OK) else 0o644)


def kit():
    """Returns the folder of Rattle's kit. Raises Unpacked if there is none."""
    found = shutil.which("rt")
    if not found:
        raise Unpacked("the licences of the kit's crates need Rattle's command rt on the path")
    return os.path.dirname(os.path.dirname(os.path.realpath(found)))


def crates_of_kit(top):
    """Returns the names of the crates of the kit that the programs stand on, with those below them."""
    own = repository.crates()
    stands = repository.below(PROGRAMS) + list(PROGRAMS)
    left = [it for name in stands for it in own[name] if it not in own]
    found = set()
    while left:
        name = left.pop()
        if name not in found:
            found.add(name)
            below = os.path.join(top, "rlibs", f"{name}.rlib", "below")
            left += os.listdir(below) if os.path.isdir(below) else []
    return sorted(found)


def licences(folder):
    """Copies the licences of the crates of the kit that the programs contain."""
    top = kit()
    for name in crates_of_kit(top):
        there = os.path.join(top, "rattle", name)
        for file in sorted(os.listdir(there)) if os.path.isdir(there) else []:
            if LICENCE.match(file):
                copy(folder, os.path.join(there, file), f"LICENSES/{name}/{file}")


def texts(folder, title):
    """Writes man pages and completions, of the programs' and of the Python client's help."""
    command = [sys.executable, "-B", repository.path(PYTHON, "jilsdau")]
    for name, program in [(it, [os.path.join(folder, "bin", it)])
                          for it in PROGRAMS] + [("jilsdau", command)]:
        it = helps.help_of(name, program)
        has_helps = "Commands" in it.parts and name in PROGRAMS
        below = [helps.help_of(word, program, word) for word in it.words()
                 if word != "help"] if has_helps else []
        put(folder, f"share/man/man1/{name}.1", helps.man(it, title, below))
        put(folder, f"share/bash-completion/completions/{name}", helps.completion(it, below))
        if name == "craq":
            words = [word for word in it.words() if word not in TOOLS]
            put(folder, "share/jilsdau/craq.words", "\n".join(sorted({*words, *PROMPT})) + "\n")


def fill(folder, proof, programs, version):
    """Writes all files of the archive."""
    for name in PROGRAMS:
        copy(folder, os.path.join(programs, name), f"bin/{name}")
    for here, there in COPIED.items():
        copy(folder, repository.path(here), there)
    for name in ("pyproject.toml", "packing.py",
                 *(f"jilsdau/{it}" for it in os.listdir(repository.path(PYTHON, "jilsdau")))):
        if not name.endswith("__pycache__"):
            copy(folder, repository.path(PYTHON, name), f"{PYTHON}/{name}")
    licences(folder)
    texts(folder, f"jilsdau {version}")
    with open(repository.path("tools/release/README.md"), encoding="utf-8") as it:
        told = {"proved": "proved", "unproved": "NOT proved: they are for trials"}[proof]
        put(folder, "README.md", it.read().replace("{version}", version).replace("{proof}", told))
    names = sorted(os.path.relpath(os.path.join(at, it), folder) for at, _, files in os.walk(folder)
                   for it in files)
    put(folder, "SHA256SUMS", "".join(f"{digest(os.path.join(folder, it))}  {it}\n" for it in names))


def digest(file):
    with open(file, "rb") as it:
        return hashlib.sha256(it.read()).hexdigest()


def version_of(programs):
    """Returns the version that craqd tells."""
    ran = subprocess.run([os.path.join(programs, "craqd"), "--version"], check=True, capture_output=True,
                         text=True)
    return ran.stdout.split()[1]


def commit_time():
    """Returns the seconds since 1970 of the last commit, or 0 without git."""
    ran = subprocess.run(["git", "log", "-1", "--format=%ct"], cwd=repository.TOP, capture_output=True,
                         text=True)
    return int(ran.stdout or 0) if ran.returncode == 0 else 0


def archive(folder, name, out):
    """Writes the archive of a folder, whose top is called name."""
    when = commit_time()

    def plain(it):
        it.uid = it.gid = 0
        it.uname = it.gname = "root"
        it.mtime = when
        return it

    made = io.BytesIO()
    with tarfile.open(fileobj=made, mode="w", format=tarfile.PAX_FORMAT) as it:
        for at, folders, files in os.walk(folder):
            folders.sort()
            for file in sorted(files):
                path = os.path.join(at, file)
                it.add(path, os.path.join(name, os.path.relpath(path, folder)), filter=plain)
    with open(out, "wb") as raw, gzip.GzipFile(fileobj=raw, mode="wb", mtime=when, filename="") as it:
        it.write(made.getvalue())


def main():
    if len(sys.argv) != 4 or sys.argv[1] not in ("proved", "unproved"):
        print(__doc__, file=sys.stderr)
        return 2
    proof, programs, out = sys.argv[1], sys.argv[2], os.path.realpath(sys.argv[3])
    try:
        version = version_of(programs)
        name = "-".join(["jilsdau", version, *(["unproved"] if proof == "unproved" else []), "linux-x86_64"])
        with tempfile.TemporaryDirectory(prefix="release-") as room:
            fill(room, proof, programs, version)
            archive(room, name, os.path.join(out, f"{name}.tar.gz"))
    except (Unpacked, OSError, subprocess.CalledProcessError) as why:
        print(f"release: {why}", file=sys.stderr)
        return 1
    with open(os.path.join(out, f"{name}.tar.gz.sha256"), "w", encoding="utf-8") as it:
        it.write(f"{digest(os.path.join(out, f'{name}.tar.gz'))}  {name}.tar.gz\n")
    print(os.path.join(out, f"{name}.tar.gz"))
    return 0


if __name__ == "__main__":
    sys.exit(main())
