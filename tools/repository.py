"""Lists the parts of the repository: its crates, and the edits that make their bodies wrong."""
import os
import re
import subprocess

TOP = os.path.dirname(os.path.dirname(os.path.realpath(__file__)))
EDIT = re.compile(r"[A-Za-z0-9_-][A-Za-z0-9_.-]*\.edit")


def path(*parts):
    return os.path.join(TOP, *parts)


def text_of(*parts):
    with open(path(*parts), encoding="utf-8") as it:
        return it.read()


def files():
    """Returns the paths of the repository's files: those that git knows or would add. Without git,
    all but what rt keeps."""
    ran = subprocess.run(["git", "ls-files", "-coz", "--exclude-standard"], cwd=TOP, capture_output=True,
                         text=True)
    if ran.returncode == 0 and ran.stdout:
        return sorted(it for it in set(ran.stdout.split("\0")) if it and os.path.isfile(path(it)))
    found = []
    for at, folders, names in os.walk(TOP):
        folders[:] = [it for it in folders if it not in (".git", "out", "__pycache__")]
        found += [os.path.relpath(os.path.join(at, it), TOP) for it in names]
    return sorted(found)


def crates():
    """Returns the name of each crate with the names that it stands on, lowest first as crates.txt
    has them."""
    found = {}
    for line in text_of("crates.txt").splitlines():
        name, colon, below = line.partition("#")[0].partition(":")
        if colon:
            found[name.split()[0]] = below.split()
    return found


def below(names):
    """Returns the crates of the repository that these stand on, lowest first."""
    known, wanted = crates(), set()
    left = [*names]
    while left:
        more = [it for it in known[left.pop()] if it in known and it not in wanted]
        wanted.update(more)
        left += more
    return [it for it in lowest_first(known) if it in wanted]


def lowest_first(known):
    """Returns the names in an order in which each stands after those that it stands on."""
    found = []

    def add(name):
        if name not in found:
            for it in known[name]:
                if it in known:
                    add(it)
            found.append(name)

    for name in known:
        add(name)
    return found


def is_program(name):
    return os.path.isfile(path("crates", name, "src", "main.rt"))


def file_of(name, file, otherwise=b""):
    """Returns the bytes of a file beside src/: the input of a program, or what it has to print."""
    try:
        with open(path("crates", name, file), "rb") as it:
            return it.read()
    except FileNotFoundError:
        return otherwise


def edits_in(name, folder):
    """Returns the names of the edits of a crate that stand in this folder of it, without their
    ending."""
    try:
        return sorted(it.removesuffix(".edit") for it in os.listdir(path("crates", name, folder))
                      if EDIT.fullmatch(it))
    except FileNotFoundError:
        return []
