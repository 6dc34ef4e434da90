"""Tries an archive that ./release made, in an empty folder and with nothing else of the repository.

    tools/release/try ARCHIVE
    tools/release/try CRAQD CRAQ CRAQ_LAB     packs these programs, as unproved ones, and tries that archive

It checks the checksums, serves the plan, asks with the clients, ends the server by a signal, renders the man
pages and completes words. man, cc, rlwrap and systemd-analyze are used if they are there. The last line is
'release: N passed, M failed', and the status is 1 if a check failed.
"""
import fcntl
import os
import pty
import re
import select
import shutil
import signal
import struct
import subprocess
import sys
import tarfile
import tempfile
import termios

from tools import repository
from tools.checks import Checks

PATIENCE = 60
NEEDED = (
    "bin/craqd", "bin/craq", "bin/craq_lab", "bin/craqd-in-order", "etc/jilsdau/plan.toml",
          "lib/systemd/system/craqd.service", "Containerfile",
    "LICENSE", "README.md", "SHA256SUMS", "clients/python/jilsdau/client.py", "clients/c/jilsdau.h",
          "share/doc/jilsdau/SERVER.md",
    "share/jilsdau/craq.words",
    *(f"share/man/man1/{it}.1" for it in ("craqd", "craq", "craq_lab", "jilsdau")),
    *(f"share/bash-completion/completions/{it}" for it in ("craqd", "craq", "craq_lab", "jilsdau")))
# Completions: the program, the word that is typed, and the one that has to come.
COMPLETED = (("craqd", "--thr", "--threads"), ("craqd", "--until", "--until-input-ends"),
             ("craq", "--js", "--json"),
             ("craq", "appe", "append"), ("craq_lab", "pla", "play"), ("jilsdau", "memb", "members"))


class Unpacked:
    """The folder of an archive, and runs of what it has."""

    def __init__(self, archive, room):
        with tarfile.open(archive) as it:
            it.extractall(room)
        [name] = os.listdir(room)
        self.top, self.home = os.path.join(room, name), os.path.join(room, "home")
        os.makedirs(os.path.join(self.home, "tmp"))
        self.environment = {"PATH": "/usr/bin:/bin", "HOME": self.home,
                            "TMPDIR": os.path.join(self.home, "tmp"), "PYTHONDONTWRITEBYTECODE": "1",
                            "LC_ALL": "C.UTF-8"}

    def path(self, name):
        return os.path.join(self.top, name)

    def ran(self, *words, folder=None):
        """Returns the status of a program and what it printed."""
        ran = subprocess.run(words, cwd=folder or self.home, env=self.environment, stdin=subprocess.DEVNULL,
                             stdout=subprocess.PIPE,
                             stderr=subprocess.STDOUT, text=True, errors="replace", timeout=PATIENCE)
        return ran.returncode, ran.stdout


def files(checks, it):
    """The files that have to be there, their checksums, and no word of where the archive was made."""
    checks.same("files that are not there", [name for name in NEEDED if not os.path.isfile(it.path(name))],
                [])
    status, told = it.ran("sha256sum", "--quiet", "-c", "SHA256SUMS", folder=it.top)
    checks.same("checksums", (status, told), (0, ""))
    with open(it.path("SHA256SUMS"), encoding="utf-8") as sums:
        listed = sorted(line.split("  ")[1] for line in sums.read().splitlines())
    found = sorted(os.path.relpath(os.path.join(at, name), it.top) for at, _, names in os.walk(it.top)
                   for name in names)
    checks.same("files without a checksum", [name for name in found if name not in (*listed, "SHA256SUMS")],
                [])
    status, told = it.ran("grep", "-rlF", repository.TOP + "/", it.top)
    checks.same("files that name the repository's folder", told, "")
    licensed = os.listdir(it.path("LICENSES"))
    checks.that({"clap", "mio", "toml"} <= set(licensed), f"licences of the libraries: {licensed}")


def prompt(checks, it, port):
    """Types at the prompt of craq by rlwrap, with a Tab; returns how many requests were answered."""
    if not shutil.which("rlwrap"):
        return 0
    words = ["rlwrap", "-f", it.path("share/jilsdau/craq.words"), it.path("bin/craq"), "--connect",
             f"127.0.0.1:{port}", "--node", "1", "shell"]
    child, terminal = pty.fork()
    if child == 0:
        fcntl.ioctl(0, termios.TIOCSWINSZ, struct.pack("4H", 24, 80, 0, 0))
        os.execvpe("rlwrap", words, {**it.environment, "TERM": "dumb"})
    os.write(terminal, b"se\t size large\nquit\n")
    told = b""
    while select.select([terminal], [], [], PATIENCE)[0]:
        try:
            told += os.read(terminal, 4096)
        except OSError:  # the prompt has ended
            break
    else:
        os.kill(child, signal.SIGKILL)
    os.close(terminal)
    os.waitpid(child, 0)
    checks.that(b"written 1" in told, f"the prompt of craq by rlwrap: {told!r}")
    return 1


def client(checks, it, port):
    """Asks with each client; returns how many requests of chain 0 were answered."""
    python = ["python3", it.path("clients/python/jilsdau"), "--connect", f"127.0.0.1:{port}"]
    checks.same("set", it.ran(*python, "set", "colour", "blue"), (0, "written 1\n"))
    checks.same("get at node 3", it.ran(*python, "get", "colour", "--node", "3"), (0, "blue"))
    craq = [it.path("bin/craq"), "--connect", f"127.0.0.1:{port}", "--node", "1"]
    status, told = it.ran(*craq, "read", "strong", "colour")
    checks.that(status == 0 and told.startswith("read 1 0x626c7565\n"), f"craq: {status} {told}")
    asked = 3 + prompt(checks, it, port)
    if not shutil.which("cc"):
        return asked
    made = os.path.join(it.home, "example")
    checks.same("cc", it.ran("cc", "-std=c99", "-Wall", "-Wextra", "-pedantic", "-o", made,
                             it.path("clients/c/example.c")), (0, ""))
    status, told = it.ran(made, "127.0.0.1", str(port))
    checks.that(status == 0 and told.endswith("update 1 3\nread 3 red\n"),
                f"the example in C: {status} {told}")
    return asked + 4


def served(checks, it, ending):
    """A server by craqd-in-order: it serves, and ends in order at a signal."""
    words = [it.path("bin/craqd-in-order"), "--journal", "--threads", "2", it.path("etc/jilsdau/plan.toml"),
             "127.0.0.1:0"]
    server = subprocess.Popen(words, cwd=it.home, env=it.environment, stdin=subprocess.DEVNULL,
                              stdout=subprocess.PIPE, stderr=subprocess.PIPE,
                              text=True, start_new_session=True,
                              preexec_fn=lambda: signal.signal(signal.SIGINT, signal.SIG_DFL))
    try:
        found = re.fullmatch(r"listening ([0-9]+)\n", server.stdout.readline())
        checks.that(found, "craqd-in-order tells where it listens")
        answered = client(checks, it, found[1]) if found else 0
        server.send_signal(ending)
        out, err = server.communicate(timeout=PATIENCE)
        checks.same(f"the end at {ending.name}", (server.returncode, out),
                    (0, f"audit merged {answered}\naudit merged 0\n"))
        checks.that(err.startswith("craqd ") and err.count("\n") == 1, f"what it tells: {err!r}")
    finally:
        if server.poll() is None:
            os.killpg(server.pid, signal.SIGKILL)
            server.wait()
    checks.same("what craqd-in-order leaves", os.listdir(it.environment["TMPDIR"]), [])


def lines(checks, it):
    """Lines written to the named pipe of craqd-in-order reach craqd, and the pipe goes at the end."""
    pipe = os.path.join(it.home, "lines")
    words = [it.path("bin/craqd-in-order"), "--control", it.path("etc/jilsdau/plan.toml"), "127.0.0.1:0"]
    server = subprocess.Popen(words, cwd=it.home, env={**it.environment, "CRAQD_LINES": pipe},
                              stdin=subprocess.DEVNULL, stdout=subprocess.PIPE, stderr=subprocess.PIPE,
                              text=True, start_new_session=True)
    try:
        checks.that(server.stdout.readline().startswith("listening "),
                    "craqd-in-order with a named pipe listens")
        server.stderr.readline()
        told = []
        for line in "stop a/3", "remove a/3", "join a/4":
            it.ran("sh", "-c", 'echo "$1" >"$2"', "sh", line, pipe)
            told.append(server.stderr.readline())
        checks.same("lines of the named pipe", told, ["a/3 stopped\n", "a/3 removed\n", "a/4 joined\n"])
        server.send_signal(signal.SIGTERM)
        out, err = server.communicate(timeout=PATIENCE)
        checks.same("the end of a server with a named pipe", (server.returncode, out, err), (0, "", ""))
    finally:
        if server.poll() is None:
            os.killpg(server.pid, signal.SIGKILL)
            server.wait()
    checks.that(not os.path.exists(pipe), "the named pipe goes at the end")


def faults(checks, it):
    """The status of craqd comes through craqd-in-order."""
    status, told = it.ran(it.path("bin/craqd-in-order"), "nowhere.toml", "127.0.0.1:0")
    checks.that(status == 2 and "cannot read nowhere.toml\ncraqd: No such file" in told,
                f"a plan that is not there: {status} {told}")
    status, told = it.ran(it.path("bin/craqd-in-order"), "--help")
    checks.that(status == 0 and told.startswith("Runs a replicated object store"),
                f"its help: {status} {told[:100]}")


def pages(checks, it):
    """Man pages render without a warning and tell options; completions complete."""
    for name in "craqd", "craq", "craq_lab", "jilsdau":
        if shutil.which("man"):
            status, told = it.ran("man", "--warnings", "-l", it.path(f"share/man/man1/{name}.1"))
            checks.that(status == 0 and "OPTIONS" in told and "warning" not in told,
                        f"the man page of {name}: {status} {told[:300]}")
    for name, typed, wanted in COMPLETED:
        script = f'source "$1"; COMP_WORDS=("$2" "$3"); COMP_CWORD=1; _{name}; echo "${{COMPREPLY[*]}}"'
        told = it.ran("bash", "-c", script, "bash", it.path(f"share/bash-completion/completions/{name}"),
                      name, typed)
        checks.same(f"the completion of {name} {typed}", told, (0, wanted + "\n"))


def unit(checks, it):
    """systemd takes the unit, whose programs are here those of the folder."""
    if not shutil.which("systemd-analyze"):
        return
    file = os.path.join(it.home, "craqd.service")
    with open(it.path("lib/systemd/system/craqd.service"),
              encoding="utf-8") as given, open(file, "w", encoding="utf-8") as made:
        made.write(given.read().replace("/usr/bin/", it.path("bin/")))
    _, told = it.ran("systemd-analyze", "verify", "--man=no", file)
    checks.same("what systemd-analyze says of the unit",
                [line for line in told.splitlines() if "craqd" in line], [])


def packed(programs, room):
    """Packs programs with ./release, and returns the name of the archive."""
    built = os.path.join(room, "built")
    os.mkdir(built)
    for name, program in zip(("craqd", "craq", "craq_lab"), programs):
        shutil.copy(program, os.path.join(built, name))
    words = [repository.path("release"), "--programs", built, room]
    return subprocess.run(words, check=True, stdout=subprocess.PIPE, text=True).stdout.strip()


def unpacked(_, given, room):
    """Unpacks an archive into a new folder, or packs programs before."""
    archive = given[0] if len(given) == 1 else packed(given, room)
    empty = os.path.join(room, "empty")
    os.mkdir(empty)
    return Unpacked(archive, empty)


def main():
    if len(sys.argv) not in (2, 4) or not all(os.path.isfile(it) for it in sys.argv[1:]):
        print(__doc__, file=sys.stderr)
        return 2
    checks = Checks("release")
    with tempfile.TemporaryDirectory(prefix="release-") as room:
        it = checks.part("the archive", unpacked, sys.argv[1:], room)
        if it:
            checks.part("files", files, it)
            for ending in signal.SIGTERM, signal.SIGINT:
                checks.part(f"a server that {ending.name} ends", served, it, ending)
            checks.part("lines", lines, it)
            checks.part("faults", faults, it)
            checks.part("pages", pages, it)
            checks.part("the unit", unit, it)
    print(f"release: {checks.passed} passed, {checks.failed} failed")
    return 1 if checks.failed else 0


if __name__ == "__main__":
    sys.exit(main())
