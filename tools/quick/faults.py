"""Shows that parts of `./test --quick` fail if something is wrong: a file in another layout, a byte
of a worked script's output, a server that answers nothing, a phrase that is refused, a public call
that is missing, a page above its limits, and a promise in other words. Each part checks a copy of
what it needs, once unchanged and once with the fault. Stubs stand for the programs: one prints what
the worked scripts of this checkout say, and one answers with its status or not at all.

    tools/python tools.quick.faults

The last line is 'faults: N passed, M failed', and the status 1 where one failed. `./test --quick` runs it.
"""
import os
import shutil
import stat
import subprocess
import sys
import tempfile

from tools import repository
from tools.checks import Checks

# The crate whose layout is looked at, and the line of it that is laid out otherwise.
CRATE = "craq_names"
LAID_OUT = ("src/lib.rt", "mod order;\n", "mod   order;\n")
# The path of the Python code: of this checkout, and of the copy if it begins otherwise.
PATH = os.environ["PYTHONPATH"]
# The worked script one byte of whose output is changed.
WORKED = "append-to-the-limit"

# Runs a part of the checks in a copy, and says how many passed and failed.
PART = """
import importlib, sys
module, function, *given = sys.argv[1:]
from tools.checks import Checks
checks = Checks("quick")
checks.part(function, getattr(importlib.import_module(module), function), *given)
print(checks.passed, checks.failed)
"""

# A stub of craq_lab: it prints the output of the worked script of this checkout whose file it is given.
PLAYS = """#!/usr/bin/env -S PYTHONPATH={path} python3 -B
import os, sys
from tools.rows import worked
name = next(os.path.basename(it).removesuffix(".script") for it in sys.argv if it.endswith(".script"))
sys.stdout.buffer.write(worked.bytes_of(f"worked/{{name}}.expected"))
"""

# A stub of craqd: it listens, and answers each client with its status, or answers nothing.
LISTENS = """#!/usr/bin/env -S PYTHONPATH={path} python3 -B
import socket
from tools.end_to_end import bad_input, running
made = socket.create_server(("127.0.0.1", 0))
print("listening", made.getsockname()[1], flush=True)
held = []
while True:
    held.append(made.accept()[0])
    if not {mute!r}:
        held[-1].sendall(bad_input.framed(bytes.fromhex("0104") + bad_input.framed(running.STATUS.encode())))
"""


class Copy:
    """A copy of the tools and of one crate, with stubs instead of programs."""

    def __init__(self, room):
        self.top = os.path.join(room, "copy")
        for folder in "tools", "examples", "clients":
            shutil.copytree(repository.path(folder), self.path(folder),
                            ignore=shutil.ignore_patterns("__pycache__"))
        for part in "src", "specs", "proofs":
            shutil.copytree(repository.path("crates", CRATE, part), self.path("crates", CRATE, part))
        with open(repository.path("crates.txt"), encoding="utf-8") as it:
            line = next(line for line in it if line.startswith(f"{CRATE}:"))
        with open(self.path("crates.txt"), "w", encoding="utf-8") as it:
            it.write(line)

    def path(self, *parts):
        return os.path.join(self.top, *parts)

    def has_too(self, crate):
        """Copies the sources of one more crate."""
        shutil.copytree(repository.path("crates", crate, "src"), self.path("crates", crate, "src"))
        with open(self.path("crates.txt"), "a", encoding="utf-8") as it:
            it.write(f"{crate}:\n")

    def changed(self, name, old, new):
        """Replaces a text of a file that stands there once."""
        with open(self.path(name), "rb") as it:
            text = it.read()
        if text.count(old) != 1:
            raise ValueError(f"{name} has {text.count(old)} times {old!r}")
        with open(self.path(name), "wb") as it:
            it.write(text.replace(old, new))

    def stub(self, name, text, **given):
        """Writes a program that replaces another."""
        stub = self.path("stubs", name)
        os.makedirs(os.path.dirname(stub), exist_ok=True)
        with open(stub, "w", encoding="utf-8") as it:
            it.write(text.format(path=PATH, **given))
        os.chmod(stub, os.stat(stub).st_mode | stat.S_IXUSR)
        return stub

    def part(self, module, function, *given):
        """Returns how many checks of a part passed and failed, and what it printed."""
        path = PATH.replace(repository.TOP, self.top)
        ran = subprocess.run([sys.executable, "-B", "-c", PART, module, function, *given], cwd=self.top,
                             env={**os.environ, "PYTHONPATH": path}, stdin=subprocess.DEVNULL,
                             capture_output=True, text=True)
        if ran.returncode:
            raise ValueError(f"{module}.{function} stopped: {ran.stderr[-600:]}")
        passed, failed = ran.stdout.split()[-2:]
        return int(passed), int(failed), ran.stderr

    def style(self):
        """Returns the findings of tools/style in the copy, without what to write instead."""
        ran = subprocess.run([self.path("tools/style"), *(self.path("crates", CRATE, it) for it in ("src",))],
                             capture_output=True, text=True)
        return [it.rpartition(": ")[0] for it in ran.stdout.splitlines()[:-1] if "refused.rt" in it]


def layout(checks, room):
    """A file that rt fmt would lay out otherwise."""
    copy = Copy(room)
    passed, failed, told = copy.part("tools.quick.layout", "formatted", tempfile.mkdtemp(dir=room))
    checks.that(passed > 0 and failed == 0, f"the layout as it is: {passed} passed, {failed} failed: {told}")
    file, old, new = LAID_OUT
    copy.changed(f"crates/{CRATE}/{file}", old.encode(), new.encode())
    _, failed, told = copy.part("tools.quick.layout", "formatted", tempfile.mkdtemp(dir=room))
    checks.that(failed == 1 and f"found ['{file}'], wanted []" in told,
                f"another layout of {file}: {failed} failed: {told}")


def worked_byte(checks, room):
    """One byte of what a worked script prints."""
    copy = Copy(room)
    played = "tools.rows.worked", "scripts", copy.stub("craq_lab", PLAYS)
    passed, failed, told = copy.part(*played)
    checks.that(passed > 100 and failed == 0,
                f"the worked scripts as they are: {passed} passed, {failed} failed: {told[-600:]}")
    file = f"tools/rows/worked/{WORKED}.expected"
    with open(copy.path(file), "rb") as it:
        text = it.read()
    with open(copy.path(file), "wb") as it:
        it.write(text[:-2] + bytes([text[-2] ^ 1]) + text[-1:])
    _, failed, told = copy.part(*played)
    names = [f"{WORKED} with {core}: " for core in ("no core named", "plain", "list")]
    checks.that(failed == 3 and all(it in told for it in names),
                f"a byte of {file} is wrong: {failed} failed: {told[-600:]}")


def silent(checks, room):
    """A server that takes connections and answers nothing."""
    copy = Copy(room)
    passed, failed, told = copy.part("tools.quick.served", "answers", copy.stub("craqd", LISTENS, mute=False))
    checks.same(f"a server that tells its status, asked for that alone: {told[-600:]}", (passed, failed),
                (1, 0))
    passed, failed, told = copy.part("tools.quick.served", "serves", copy.stub("mute", LISTENS, mute=True),
                                     "/bin/false")
    checks.same(f"a server that answers nothing: {told[-600:]}",
                (passed, failed, "found TimeoutError" in told), (0, 1, True))


def refused_phrase(checks, room):
    """A comment with a phrase that tools/style refuses, and a docstring that begins with one."""
    copy = Copy(room)
    checks.same("the style of an unchanged copy", copy.style(), [])
    file = f"crates/{CRATE}/src/refused.rt"
    with open(copy.path(file), "w", encoding="utf-8") as it:
        it.write("//! Whether it fits.\n// It `for good` stays for good, if ever.\nconst TOLD: &str = \"to "
                 "whoever asks\";\n")
    checks.same("the style of a copy with three faults", copy.style(),
                [f"{file}:1: 'Whether'", f"{file}:2: 'for good'", f"{file}:3: 'whoever'"])


def missing_call(checks, room):
    """A public call of the specification that is private, or has another signature. Of one of them a
    second crate has a namesake with more arguments, which does not stand for it."""
    copy, numbers = Copy(room), f"crates/{CRATE}/src/number.rt"
    copy.has_too("craq_server")
    copy.has_too("craq_metrics")
    before = copy.part("tools.pages.surface", "surface")
    for file, old, new in (
            (numbers, b"pub fn next(self)", b"fn next(self)"),
            (numbers, b"pub fn join(self, other: Pass)", b"pub fn join(self, other: u64)"),
            ("crates/craq_server/src/status.rt", b"pub fn status_text", b"fn status_text")):
        copy.changed(file, old, new)
        after = copy.part("tools.pages.surface", "surface")
        checks.same(f"missing calls after a change of {old}: {after[2][-600:]}", after[1], before[1] + 1)
        before = after


def long_page(checks, room):
    """A page with too many words, a long line or a wide cell, one without a limit, and a number that no
    file of results has."""
    copy = Copy(room)
    page, results = copy.path("clients/README.md"), copy.path("benchmarks/one/RESULTS.md")
    with open(page, encoding="utf-8") as it:
        text = it.read()

    def failed(module, more, at=page, before=text):
        os.makedirs(os.path.dirname(at), exist_ok=True)
        with open(at, "w", encoding="utf-8") as it:
            it.write(before + more)
        found = copy.part(f"tools.pages.{module}", module)[1]
        with open(page, "w", encoding="utf-8") as it:
            it.write(text)
        return found

    checks.same("faults of pages as they are", failed("sizes", ""), 0)
    for what, more in (("700 words", "\nword" * 700), ("a line", "\n" + "long " * 25),
                       ("a cell", "\n| " + "wide " * 26 + "|")):
        checks.same(f"faults of a page with {what} more", failed("sizes", more), 1)
    checks.same("faults of a page without a limit", failed("sizes", "word\n", copy.path("notes.md"), ""), 1)
    before = failed("measures", "2026-11-27: commit abc, 4 processors\n\n7.25 µs\n", results, "")
    for more, faults in ("A put takes 7.25 µs.", 0), ("A put takes 7.31 µs.", 1), ("At 1.9 of redis.", 1), (
            "It takes at most 7.31 µs.", 0):
        checks.same(f"faults of a page that says: {more}", failed("measures", "\n" + more) - before, faults)


def other_promise(checks, room):
    """A promise in other words than those of the specification."""
    copy = Copy(room)
    for page in "README.md", "docs/proof/PROMISE.md":
        os.makedirs(os.path.dirname(copy.path(page)), exist_ok=True)
        shutil.copy(repository.path(page), copy.path(page))
    checks.same("faults of the promise as it is", copy.part("tools.pages.check", "promised")[1], 0)
    copy.changed("README.md", b"a beginning of that list", b"a part of that list")
    checks.same("faults of a promise in other words", copy.part("tools.pages.check", "promised")[1], 1)


def main():
    checks = Checks("faults")
    for part in layout, worked_byte, silent, refused_phrase, missing_call, long_page, other_promise:
        with tempfile.TemporaryDirectory(prefix="faults-") as room:
            checks.part(part.__doc__, part, os.path.realpath(room))
    print(f"faults: {checks.passed} passed, {checks.failed} failed")
    return 1 if checks.failed else 0


if __name__ == "__main__":
    sys.exit(main())
