"""Each answer of the public call `accept` of the server library, made to come.

A program that is built without its proofs (accepted/main.txt) calls `accept` twice, of one store
and one listener. So a second call shows that the store and the listener still serve after a refusal
of the first.

- With ample memory and threads it returns the receipts of its connections; none without journals.
- Where the listener fails for a reason that lasts, it answers 28 (`EINVAL`, as of a listener that
  was shut down).
- Errors that pass, as no free descriptor and an aborted connection, are waited out.
- Where a thread is refused, it answers 14; so it does where memory is, unless the connection alone
  lacks it and ends.
"""
import errno
import os
import re
import select
import shutil
import subprocess
import tempfile

from tools import unproved
from tools.end_to_end import running
from tools.hostile import refused, stores
from tools.hostile.asked import example

TEXTS = os.path.join(os.path.dirname(os.path.realpath(__file__)), "accepted")
NAME = "craq_accepted"
OWN = ("craq_names", "craq_compact_history", "craq_place", "craq_workers", "craq_server")
LEFT_OUT = "left out: there is no rt to build its program"
MEMORY, IO = "refused 14", "refused 28"
# The connections of each call, and the requests of each connection.
CONNECTIONS, REQUESTS = 2, 3
# Errors of `accept` that last, and errors that pass; calls that fail so one after another.
LASTING = (errno.EINVAL, errno.EBADF, errno.ENOTSOCK, errno.EOPNOTSUPP)
PASSING = (errno.EMFILE, errno.ENFILE, errno.ENOBUFS, errno.ENOMEM, errno.ECONNABORTED, errno.EPROTO,
           errno.EPERM, errno.EINTR)
FAILING = 3
# More than the threads that both calls start, and than the memory that they ask for.
MOST_THREADS, MOST_MEMORY = 20, 2_000
RECEIPTS = re.compile(r"receipts \d+")


def line_of(process):
    """Returns the next line that the program prints, or "nothing" if none comes in time."""
    tells, _, _ = select.select([process.stdout], [], [], running.PATIENCE)
    return process.stdout.readline().decode().strip() if tells else "nothing"


def ask_all(port):
    """Makes the requests of one connection. Returns how many were answered."""
    answered = 0
    try:
        with example.Client(f"127.0.0.1:{port}", 2, tries=1) as client:
            for _ in range(REQUESTS):
                client.put("k", b"v")
                answered += 1
    except (OSError, example.Refused, example.BadReply):
        pass
    return answered


def answers(program, journals, env):
    """Runs the program, and makes as many connections as its two calls may take. Returns the answers
    of its calls, how many requests were answered, and its status."""
    process = subprocess.Popen([program, str(CONNECTIONS), "journals" if journals else "none"],
                               stdout=subprocess.PIPE, bufsize=0, env={**os.environ, **env})
    try:
        port = re.fullmatch(r"listening (\d+)", line_of(process))
        if not port:
            return [], 0, "it does not listen"
        answered = sum(ask_all(port[1]) for _ in range(2 * CONNECTIONS))
        out, _ = process.communicate(timeout=running.PATIENCE)
        return out.decode().splitlines(), answered, process.returncode
    finally:
        process.kill()
        process.communicate()


def serves(checks, library, program, journals):
    """Tries `accept` with ample memory, and with each error of `accept4`. Returns how many it tried."""
    ample = [f"receipts {CONNECTIONS * REQUESTS if journals else 0}"] * 2
    every = 2 * CONNECTIONS * REQUESTS
    checks.same("accept", answers(program, journals, library.refusing()), (ample, every, 0))
    for error in LASTING:
        env = library.refusing(accept=1, error=error)
        checks.same(f"accept where the listener fails with the lasting error {error}",
                    answers(program, journals, env), ([IO, ample[1]], every // 2, 0))
    for error in PASSING:
        env = library.refusing(accept=FAILING, error=error)
        checks.same(f"accept where {FAILING} errors {error} pass", answers(program, journals, env),
                    (ample, every, 0))
        checks.that(refused.told_in(env).refused, f"error {error} came")
    return len(LASTING) + len(PASSING)


def lacks_threads(checks, library, program, journals):
    """Refuses each thread of both calls in turn. Returns how many were refused."""
    ample, told = [f"receipts {CONNECTIONS * REQUESTS if journals else 0}"] * 2, 0
    for at in range(1, MOST_THREADS):
        env = library.refusing(thread=at, after="listening")
        lines, answered, status = answers(program, journals, env)
        if not refused.told_in(env).refused:
            break
        told += 1
        checks.that(status == 0 and lines in ([MEMORY, ample[1]], [ample[0], MEMORY]),
                    f"thread {at} refused in accept: {lines}, status {status}")
        checks.same(f"requests answered without thread {at}", answered, (2 * CONNECTIONS - 1) * REQUESTS)
    checks.that(told >= 2 * CONNECTIONS, f"a thread for each connection is refused: {told}")
    return told


def lacks_memory(checks, library, program, journals):
    """Refuses each ask for memory of both calls in turn, until a run meets no refusal. Returns how many
    were refused, and how many of them `accept` answered with 14."""
    ample = [f"receipts {CONNECTIONS * REQUESTS if journals else 0}"] * 2
    told = answered_so = 0
    for at in range(1, MOST_MEMORY):
        env = library.refusing(memory=at, after="listening")
        lines, answered, status = answers(program, journals, env)
        if not refused.told_in(env).refused:
            break
        told, answered_so = told + 1, answered_so + (MEMORY in lines)
        checks.that(status == 0 and len(lines) == 2 and lines.count(MEMORY) <= 1
                    and all(it == MEMORY or RECEIPTS.fullmatch(it) for it in lines),
                    f"memory {at} refused in accept: {lines}, status {status}")
        checks.that(MEMORY in lines or lines == ample or answered < 2 * CONNECTIONS * REQUESTS,
                    f"memory {at} refused: {lines}, though all {answered} requests were answered")
    checks.that(told > answered_so > 0, f"accept answers 14 to some of {told} refusals: {answered_so}")
    return told, answered_so


def all_of(checks, library, program, journals):
    """Makes each answer come, with journals or without. Returns what was tried, in words."""
    errors = serves(checks, library, program, journals)
    threads = lacks_threads(checks, library, program, journals)
    memory, said = lacks_memory(checks, library, program, journals)
    return (f"{errors} errors of the listener, {threads} threads and {memory} allocations refused, "
            f"{said} of these answered with 14")


def tried(checks):
    """Tries `accept` with journals and without, and returns what was tried, in words."""
    if not shutil.which("rt"):
        return LEFT_OUT
    with tempfile.TemporaryDirectory(prefix="accepted-") as room:
        try:
            program = unproved.built_alone(stores.made(room, NAME, TEXTS, OWN), os.path.join(room, NAME),
                                           is_fast=True)
        except unproved.Unbuilt as why:
            checks.that(False, f"the program that calls accept cannot be built: {why}")
            return "its program could not be built"
        library = refused.Library(room)
        return "; ".join(f"{words}: {all_of(checks, library, program, journals)}"
                         for words, journals in (("with journals", True), ("without", False)))
