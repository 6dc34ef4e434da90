"""Pastes the commands of README.md and docs/ on a clean clone, and compares what they print with
what the page says.

    tools/pages/try [PAGE.md ..]                             all but the commands of craqd, craq and craq_lab
    tools/pages/try [PAGE.md ..] CRAQD CRAQ CRAQ_LAB         all, with these programs, as ./build or
                                                             the gate made them

Where pages are named, as README.md, only theirs are pasted.

What is pasted stands in blocks that begin with ```console: a line '$ COMMAND', and below it what it
prints on standard output. A line '..' there stands for any lines, and the number after 'pass' is
free. A server runs until its page ends, or until it ends by itself where it was given
--connections. The ports 7000 to 7002 stand for free ones, and 7000 is where the clients ask by
default. A newline that a value lacks at its end is put there, as on a terminal. Without programs
./serve and ./play build theirs without proofs, as they do on a fresh clone.

The last line is 'pages: N passed, M failed, K not tried', and the status 1 where a command failed.
"""
import os
import re
import shutil
import signal
import subprocess
import sys
import tempfile
import threading
import time

from tools import repository
from tools.sockets import free_port

PROGRAMS = ("craqd", "craq", "craq_lab")
SERVERS = ("./serve", "craqd")
# A command, or one at the end of a pipe, that is one of the programs.
NEEDED = re.compile(r"(?:^|[|;&] *)(?:craqd|craq|craq_lab) ")
# Seconds that a command has, since ./serve and ./play may have to build, and that a server has to
# end by itself.
PATIENCE, ENDING = 1_800, 30


def blocks(text):
    """Returns the commands of a page with what each prints, in order."""
    found = []
    for block in re.findall(r"^```console\n(.*?)^```$", text, re.M | re.S):
        for line in block.splitlines():
            if line.startswith("$ "):
                found.append((line[2:], []))
            elif found:
                found[-1][1].append(line)
    return found


def pattern(lines):
    """Returns the expression of what these lines of a page stand for."""
    parts = [r"(?:.*\n)*?" if line == ".." else re.sub(r"pass\\ [0-9]+$", r"pass\\ [0-9]+", re.escape(line))
             + r"\n" for line in lines]
    return re.compile("".join(parts))


class Page:
    """A page whose commands are run in order, in one folder."""

    def __init__(self, name, folder, places, programs):
        self.name, self.folder, self.programs = name, folder, programs
        self.ports = {port: str(free_port()) for port in ("7000", "7001", "7002")}
        self.environment = {**os.environ, "PATH": places + os.pathsep + os.environ["PATH"],
                            "PYTHONDONTWRITEBYTECODE": "1",
                            "CRAQ_CONNECT": f"127.0.0.1:{self.ports['7000']}",
                            "XDG_STATE_HOME": os.path.join(folder, ".state", name)}
        self.passed = self.failed = self.left = 0
        self.servers = []
        with open(os.path.join(folder, name), encoding="utf-8") as it:
            self.commands = blocks(it.read())

    def with_ports(self, text):
        for port, free in self.ports.items():
            text = text.replace(port, free)
        return text

    def judge(self, command, lines, printed):
        printed += "\n" if printed and not printed.endswith("\n") else ""
        if pattern(lines).fullmatch(printed):
            self.passed += 1
        else:
            self.failed += 1
            wanted = "".join(f"{line}\n" for line in lines)
            print(f"pages: FAILED: {self.name}: $ {command}\nfound:\n{printed}wanted:\n{wanted}",
                  file=sys.stderr)

    def start(self, command, lines):
        """Starts a server, and waits for its first line."""
        output = tempfile.TemporaryFile("w+", encoding="utf-8")
        words = self.with_ports(command)
        server = subprocess.Popen(["bash", "-c", "exec " + words], cwd=self.folder, env=self.environment,
                                  stdin=subprocess.DEVNULL,
                                  stdout=output, start_new_session=True)
        self.servers.append((command, lines, server, output))
        until = time.time() + PATIENCE
        while os.fstat(output.fileno()).st_size == 0 and server.poll() is None and time.time() < until:
            time.sleep(0.05)

    def end(self, command, lines, server, output):
        """Ends a server, or waits for its end, and judges all that it printed."""
        try:
            if "--connections" not in command:
                server.terminate()
            server.wait(ENDING)
        except subprocess.TimeoutExpired:
            pass
        try:
            os.killpg(server.pid, signal.SIGKILL)
        except ProcessLookupError:
            pass
        output.seek(0)
        self.judge(command, lines, output.read())

    def run_one(self, command, lines):
        if NEEDED.search(command) and not self.programs:
            self.left += 1
        elif command.split()[0] in SERVERS:
            self.start(command, [self.with_ports(line) for line in lines])
        else:
            ran = subprocess.run(["bash", "-c", self.with_ports(command)], cwd=self.folder,
                                 env=self.environment, text=True,
                                 stdin=subprocess.DEVNULL, stdout=subprocess.PIPE, timeout=PATIENCE,
                                 errors="replace")
            self.judge(command, lines, ran.stdout)

    def run(self):
        try:
            for command, lines in self.commands:
                self.run_one(command, lines)
        except subprocess.TimeoutExpired as failure:
            self.failed += 1
            print(f"pages: FAILED: {self.name}: {failure}", file=sys.stderr)
        finally:
            for server in self.servers:
                self.end(*server)


def clone(folder):
    """Makes a clean clone of what was committed, and returns the names of its pages."""
    subprocess.run(["git", "clone", "--quiet", repository.TOP, folder], check=True)
    listed = subprocess.run(["git", "ls-files", "README.md", "docs"], cwd=folder, check=True,
                            capture_output=True, text=True).stdout
    return [it for it in listed.split() if it.endswith(".md")]


def install(folder, programs):
    """Puts programs where ./build puts them, and gives a folder of the same for the path."""
    places = os.path.join(folder, ".programs")
    os.mkdir(places)
    sources = subprocess.run([os.path.join(folder, "tools/sources"), folder], check=True, capture_output=True,
                             text=True).stdout
    for name, program in zip(PROGRAMS, programs):
        out = os.path.join(folder, "crates", name, "out")
        os.makedirs(out)
        shutil.copy(program, out)
        os.rename(os.path.join(out, os.path.basename(program)), os.path.join(out, name))
        with open(os.path.join(out, name + ".of"), "w", encoding="utf-8") as it:
            it.write(sources)
        os.symlink(os.path.join(out, name), os.path.join(places, name))
    return places


def main():
    chosen = [it for it in sys.argv[1:] if it.endswith(".md")]
    programs = [os.path.realpath(it) for it in sys.argv[1:] if it not in chosen]
    if len(programs) not in (0, len(PROGRAMS)):
        print(__doc__, file=sys.stderr)
        return 2
    with tempfile.TemporaryDirectory(prefix="pages-") as top:
        folder = os.path.join(top, "clone")
        names = clone(folder)
        places = install(folder, programs)
        pages = [Page(name, folder, places, bool(programs)) for name in chosen or names]
        threads = [threading.Thread(target=it.run) for it in pages]
        for it in threads:
            it.start()
        for it in threads:
            it.join()
    passed, failed, left = (sum(getattr(it, count) for it in pages) for count in ("passed", "failed", "left"))
    print(f"pages: {passed} passed, {failed} failed, {left} not tried")
    return 1 if failed else 0


if __name__ == "__main__":
    sys.exit(main())
