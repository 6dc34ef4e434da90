"""Uses the programs as nobody should, and looks whether they lose anything.

    tools/hostile/run [--only PART ..] [--minutes M] [--note [--unproved]] [--calls PROGRAM]
        [--stress PROGRAM] CRAQ_LAB CRAQD

The programs are those that the gate or ./build made; ./hostile runs this with them, ./test its
parts stops, memory and calls. The soak is run where --minutes says how long. A craqd serves in each
way, a thread for each connection and --threads 2, one after the other. The parts, each told in the
head of its file:

    stops    each node stops after every move of the stored scripts, and schedules draw what comes
             next (every_stop.py)
    bytes    craqd among clients that send cut, changed and random bytes (attack.py)
    memory   each ask for memory of craq_lab refused in turn (refused.py); needs a C compiler
    calls    each ask for memory and each thread refused in turn within one call of the library,
             which is then made once more (refused_calls.py); of the program of the crate
             craq_node_tests, which --calls names
    stress   stores on threads that lose messages and send some twice for ten seconds, are closed
             1,000 times, and change their members while 100,000 calls are answered (stressed.py);
             of the program of craq_thread_tests, which --stress names
    server   each ask for memory and each thread of craqd refused in turn, while it is asked
             (refused_server.py); needs a C compiler
    accepted each answer of the public call `accept` of the server library (accepted.py); where `rt`
             can build its program; needs a C compiler
    limits   craqd among 1,400 connections that attack it, and where it gets no more memory, files
             or threads (limits.py)
    served   what a store promises clients over TCP while its nodes stop, are removed and join
             (served.py); where `rt` can build it
    removed  the memory of a store without journals whose members are replaced (removed.py); where
             `rt` can build it
    watched  scripts and a server under valgrind, where that is installed (watched.py)
    soak     stores on threads whose nodes stop, go and join, where `rt` can build them, then a
             server; and random scripts (soak.py). It tells in its end what was counted in all
             parts; the minutes do not count what building takes

What is found wrong is told on standard error. The last line is 'N passed, M failed', and the status
1 where M is not 0. With --note what each part tried is written into tools/pages/hostile.tsv and
docs/proof/TESTED.md, as tried of the programs of the present commit. With --unproved the page says
that these programs were built without proofs.
"""
import argparse
import os
import sys
import time

from tools.checks import Checks
from tools.hostile import (accepted, attack, every_stop, figures, limits, refused, refused_calls,
                           refused_server, removed, served, soak, stressed, watched)

SEEDS = 100
LEFT_OUT = "left out: its program is missing, which ./test makes"


def parts(asked):
    """Returns the parts by name, each as a call that returns what it tried, in words."""
    found = {
        "stops": lambda checks: every_stop.tried(checks, asked.craq_lab, SEEDS),
        "bytes": lambda checks: attack.tried(checks, asked.craqd),
        "memory": lambda checks: refused.tried(checks, asked.craq_lab),
        "server": lambda checks: refused_server.tried(checks, asked.craqd),
        "calls": lambda checks: refused_calls.tried(checks, asked.calls) if asked.calls else LEFT_OUT,
        "stress": lambda checks: stressed.tried(checks, asked.stress) if asked.stress else LEFT_OUT,
        "limits": lambda checks: limits.tried(checks, asked.craqd),
        "accepted": accepted.tried,
        "served": served.tried,
        "removed": removed.tried,
        "watched": lambda checks: watched.tried(checks, asked.craq_lab, asked.craqd),
    }
    if asked.minutes > 0:
        found["soak"] = lambda checks: soak.tried(checks, asked.craq_lab, asked.craqd, asked.minutes)
    return found


def asked_for():
    """Parses the command line. Ends the program with status 2 if it is wrong."""
    usage = __doc__.partition("\n\n")[2]
    if "--help" in sys.argv:
        print(usage, end="")
        sys.exit(0)
    reader = argparse.ArgumentParser(usage=usage, add_help=False)
    reader.add_argument("--only", action="append", default=[])
    reader.add_argument("--minutes", type=float, default=0)
    reader.add_argument("--note", action="store_true")
    reader.add_argument("--unproved", action="store_true")
    reader.add_argument("--calls", type=os.path.realpath)
    reader.add_argument("--stress", type=os.path.realpath)
    reader.add_argument("craq_lab", type=os.path.realpath)
    reader.add_argument("craqd", type=os.path.realpath)
    return reader.parse_args()


def main():
    asked = asked_for()
    for program in asked.craq_lab, asked.craqd, asked.calls, asked.stress:
        if program and not os.access(program, os.X_OK):
            print(f"hostile: there is no program {program}", file=sys.stderr)
            return 1
    known = parts(asked)
    if not {*asked.only} <= {*known}:
        print(f"hostile: the parts are {', '.join(known)}", file=sys.stderr)
        return 2
    checks, rows = Checks("hostile", progress=True), {}
    for name in asked.only or known:
        before, began = (checks.passed, checks.failed), time.monotonic()
        told = checks.part(name, known[name]) or "stopped"
        passed, failed = checks.passed - before[0], checks.failed - before[1]
        seconds = round(time.monotonic() - began)
        rows[name] = passed, failed, seconds, told
        print(f"{name}: {told}; {passed} passed, {failed} failed, {seconds} s", flush=True)
    if asked.note:
        figures.note(rows, asked.unproved)
    print(f"{checks.passed} passed, {checks.failed} failed")
    return 1 if checks.failed else 0


if __name__ == "__main__":
    sys.exit(main())
