"""Looks at everything that can be seen without a proof, in some ten minutes on 4 processors from a
fresh clone.

    ./test --quick                                   all of it
    tools/quick/run [--programs FOLDER] [JOB ..]     these jobs alone, with the programs of that
                                                     folder: what is not there is built there

The layout of files and text, words that do not belong here, the pages compared with the sources,
edits that can be applied, the scripts at the top over a stub of `rt`, the client in Python; then
programs that are built without their proofs (tools/unproved.py), each once: each crate of tests and
the program of docs/use/EMBEDDING.md, worked scripts and schedules on craq_lab, the server and its
command from end to end, a server of changed sources whose audits do not fit, the commands of the
pages, and the programs of benchmarks/. The tests on threads make fewer calls here. It proves
nothing: no contract, no mutant. What is right here and not proved is found by ./test alone. The
programs have the tests that `rt try` puts in, as of an index out of bounds, and no checks of
addresses. That ./serve and ./play build a program where none is, is not tried. The last line is 'N
passed, M failed; proves nothing'. On a terminal a line on standard error tells how far it is.
"""
import argparse
import os
import sys
import tempfile
import threading
import time
from concurrent.futures import ThreadPoolExecutor

from tools.end_to_end import audits
from tools import benched, machine, repository
from tools.checks import Checks
from tools.quick import lab, layout, served, tries, words
from tools.quick.programs import Programs

# The memory that building a program without its proofs takes at most, as a rule.
BUILD = 2_000_000_000
# The programs that people run, and those of the others that take longest.
OWN = ("craqd", "craq_lab", "craq")
LONGEST = ("craq_thread_tests", "craq_node_tests")
SCRIPTS = ("tools/pages/check", "tools/lint", "tools/style", "tools/clients/run")
MODULES = ("tools.quick.top", "tools.quick.faults")


def texts(checks):
    """Layout and words, and edits that can be applied."""
    for part in layout.folders, layout.stray, layout.edits, words.unwanted, words.names_of_crates:
        checks.part(part.__doc__, part)
    return f"{len(repository.crates())} crates"


def formatted(checks):
    """The layout of text."""
    with tempfile.TemporaryDirectory(prefix="quick-") as room:
        layout.formatted(checks, room)
    return f"{len(repository.crates())} crates"


def script(*words):
    return lambda checks: tries.passes(checks, *words)


def tried(programs, names, run, *given):
    """A job on programs, which are built before."""
    def job(checks):
        found = programs.all_of(checks, *names)
        return found and run(checks, *given, *found)
    return job


def pages(checks, *found):
    """The commands of the pages, on a clean clone with these programs, print what the pages say."""
    return tries.passes(checks, "tools/pages/try", *found)


def clients(checks, craqd):
    """The clients in Python and C, at a server."""
    return tries.passes(checks, "tools/clients/run", craqd)


def release(checks, *found):
    """An archive of these programs, tried in an empty folder."""
    return tries.passes(checks, "tools/release/try", *found)


def jobs(programs):
    """Returns the jobs by name: the longest first, and those on several programs once these are built."""
    tests = [it for it in repository.crates() if repository.is_program(it) and it not in (*OWN, *LONGEST)]

    def alone(*names):
        return {it: tried(programs, [it], tries.prints_its_file, it) for it in names}

    return {**alone(*OWN, *LONGEST), "the server": tried(programs, ["craqd", "craq"], served.serves),
            "clients": tried(programs, ["craqd"], clients),
            "audits": tried(programs, [audits.PROGRAM], audits.tried),
            "worked scripts": tried(programs, ["craq_lab"], lab.plays),
            "pages": tried(programs, ["craqd", "craq", "craq_lab"], pages),
            "release": tried(programs, ["craqd", "craq", "craq_lab"], release),
            **alone(*tests), **{f"benchmarks/{it}": script("benchmarks/build", "--try", it)
                                for it in benched.programs()},
            "layout": formatted, "texts": texts, **{it: script(it) for it in SCRIPTS},
            **{it: script("tools/python", it) for it in MODULES}}


class Progress:
    """The results of the jobs that are done."""

    def __init__(self, count):
        self.count, self.done, self.began = count, [], time.time()
        self.printing, self.ended = threading.Lock(), threading.Event()

    def run(self, name, job):
        checks, began = Checks("quick"), time.time()
        told = checks.part(name, job)
        with self.printing:
            self.done.append(checks)
            print(f"{name}: {told or 'stopped'}, {checks.passed} passed, {checks.failed} failed, "
                  f"{time.time() - began:.0f} s", flush=True)

    def tell(self):
        while not self.ended.wait(1):
            sys.stderr.write(f"\r{len(self.done)} of {self.count} done, "
                             f"{(time.time() - self.began) / 60:.0f} minutes\r")


def asked():
    """Parses the command line."""
    parser = argparse.ArgumentParser(prog="tools/quick/run", description=__doc__,
                                     formatter_class=argparse.RawDescriptionHelpFormatter)
    parser.add_argument("--programs", metavar="FOLDER", type=os.path.realpath)
    parser.add_argument("jobs", metavar="JOB", nargs="*")
    return parser.parse_args()


def done(todo):
    """Runs jobs side by side, and returns their results."""
    progress = Progress(len(todo))
    if sys.stderr.isatty():
        threading.Thread(target=progress.tell, daemon=True).start()
    with ThreadPoolExecutor(machine.lanes(BUILD)) as pool:
        for it in [pool.submit(progress.run, name, job) for name, job in todo.items()]:
            it.result()
    progress.ended.set()
    return progress


def main():
    given = asked()
    os.chdir(repository.TOP)
    with tempfile.TemporaryDirectory(prefix="quick-") as room:
        known = jobs(Programs(os.path.realpath(given.programs or room)))
        if set(given.jobs) - set(known):
            print(f"quick: there are the jobs {', '.join(known)}", file=sys.stderr)
            return 2
        progress = done({name: job for name, job in known.items() if not given.jobs or name in given.jobs})
    passed, failed = sum(it.passed for it in progress.done), sum(it.failed for it in progress.done)
    print(f"{(time.time() - progress.began) / 60:.0f} minutes by the clock, on "
          f"{len(os.sched_getaffinity(0))} processors")
    print(f"{passed} passed, {failed} failed; proves nothing")
    return 1 if failed else 0


if __name__ == "__main__":
    sys.exit(main())
