"""A store that is served over the loopback while its members change, for the parts `removed` and
`served`. A client of craqd cannot stop, remove or join a node; here a program that is built without
its proofs does so as this script tells it, and loses one message in 97.

Its texts are served/*.txt. They become a crate, in a copy of the sources that it stands on, as
those of the soak do (stores.py). What such a program shows it shows of the library's code as it
stands.
"""
import functools
import os
import select
import shutil
import subprocess
import tempfile
import time

from tools.end_to_end import running
from tools import unproved
from tools.hostile import stores
from tools.hostile.asked import example

TEXTS = os.path.join(os.path.dirname(os.path.realpath(__file__)), "served")
NAME = "craq_served"
OWN = ("craq_names", "craq_compact_history", "craq_seat", "craq_audit", "craq_place", "craq_workers",
       "craq_server")
LEFT_OUT = "left out: there is no rt to build its program"
# Seconds that a call may take, however often it is refused and asked again.
PATIENCE = 10
# After these refusals the same is asked again: also where a node that joined is not ready.
NOT_READY = 10
OPEN = (*example.PASSING, NOT_READY)
# The forms of a store, by the word of its program, in words: who takes the steps of its nodes. That
# of craqd, however it serves, is USUAL.
FORMS = {"workers": "two threads a node", "chain-thread": "two threads a chain"}
USUAL = "chain-thread"


@functools.cache
def built():
    """Builds the program once for both parts. Returns it with its folder, which is removed at the
    end."""
    room = tempfile.TemporaryDirectory(prefix="served-")
    return unproved.built_alone(stores.made(room.name, NAME, TEXTS, OWN), os.path.join(room.name, NAME),
                                is_fast=True), room


def used(checks, run):
    """Returns the result of a call with the program in each way of serving; or why there is no program."""
    if not shutil.which("rt"):
        return LEFT_OUT
    try:
        program, _ = built()
    except unproved.Unbuilt as why:
        checks.that(False, f"a store whose members change cannot be built: {why}")
        return "its program could not be built"
    return running.in_each_way(checks, lambda: run(program))


def in_each_form(checks, run):
    """Calls `run` once with a store of each form, and returns its results in words. A check that fails
    names the form."""
    title, told = checks.title, []
    for form, words in FORMS.items():
        checks.title = f"{title}, {words}"
        try:
            told.append(f"{words}: {run(form)}")
        finally:
            checks.title = title
    return "; ".join(told)


def threads_asked():
    """Returns the number of threads that serve all connections by running.OPTIONS; 0 if each has
    one of its own."""
    return dict(zip(running.OPTIONS, running.OPTIONS[1:])).get("--threads", "0")


class Changing(running.Server):
    """A store of `chains` chains of the nodes 1 to 3, of that form, which serves as running.OPTIONS
    say."""

    def __init__(self, program, chains, form, journals):
        words = [program, str(chains), threads_asked(), form, "journals" if journals else "none"]
        self.process = subprocess.Popen(words, stdin=subprocess.PIPE, stdout=subprocess.PIPE,
                                        stderr=subprocess.PIPE, text=True, bufsize=1)
        self.members, self.next = [[1, 2, 3] for _ in range(chains)], [4] * chains
        first = self.line()
        if not first.startswith("listening "):
            raise ValueError(f"{NAME} says {first!r}")
        self.port = int(first.removeprefix("listening "))

    def line(self):
        """Returns the next line that it prints."""
        tells, _, _ = select.select([self.process.stdout], [], [], running.PATIENCE)
        return self.process.stdout.readline().strip() if tells else "nothing"

    def told(self, order, chain, node):
        """Returns its reply to an order."""
        self.process.stdin.write(f"{order} {chain} {node}\n")
        return self.line()

    def stops(self, chain, place):
        """Stops the member at this place of the chain. Returns the reply."""
        return self.told("stop", chain, self.members[chain][place])

    def replaces(self, chain, place):
        """Removes the stopped member at this place, and lets another join. Returns both replies."""
        gone, came = self.members[chain].pop(place), self.next[chain]
        self.members[chain].append(came)
        self.next[chain] += 1
        return self.told("remove", chain, gone), self.told("join", chain, came)

    def threads(self):
        return len(os.listdir(f"/proc/{self.process.pid}/task"))

    def ends(self):
        """Its input ends: its status, and what it then says."""
        try:
            out, err = self.process.communicate(timeout=running.PATIENCE * 5)
        except subprocess.TimeoutExpired:
            return "no end", [], ""
        return self.process.returncode, out.splitlines(), err

    def kill(self):
        if self.runs():
            self.process.kill()
            self.process.communicate()


class Late(Exception):
    """A call was not answered in time."""


class Insistent(example.Client):
    """A client that asks again at once, for `seconds` seconds, what is refused for the moment. It
    keeps the pass that came last, and counts its calls and its repetitions."""

    def __init__(self, address, client, seconds=PATIENCE):
        self.seconds, self.came, self.asked, self.again = seconds, 0, 0, 0
        super().__init__(address, 2, client)

    def retried(self, attempt):
        until, is_first = time.monotonic() + self.seconds, True
        while time.monotonic() < until:
            try:
                return attempt(is_first)
            except TimeoutError:
                break
            except example.Refused as fault:
                if fault.number not in OPEN:
                    raise
            is_first = False
            self.again += 1
            time.sleep(0.002)
        raise Late(f"no answer in {self.seconds} s")

    def exchange(self, payload):
        before, self.shown = self.shown, 0
        try:
            self.asked += payload[1] != example.STATUS
            return super().exchange(payload)
        finally:
            self.came, self.shown = self.shown, max(before, self.shown)

    def loses(self, request):
        """Asks, and does not wait for the reply."""
        if not self.connection:
            self.connection = example.Connection(self.address)
        self.asked += 1
        self.connection.send(example.one(self.version, request))
        self.close()
