"""Plays scripts, after which rounds bring about recovery, on craq_lab, with nodes of either core.

    tools/rows/recovery [--scripts N] CRAQ_LAB [NAME..]     the program, as the gate or ./build made it

A round is what craq_recovery says: the master ticks, each member ticks, and then, in each of two
hops, the messages arrive that were sent since the last time, in order. What the last hop brings
about is lost. After each script that leaves N members come 2 N + 2 rounds.
Each member has to serve then, and both cores have to print the same.

Played are the scripts of recoveries/, or those of them that are named. After some of them the
rounds are played again as a wrong machine takes them, one that repeats too little: then some member
does not serve. Where none is named, N scripts follow that seeds determine (400, if no number is
given). The last line is 'N passed, M failed', and the status 1 where a check failed.
"""
import os
import random
import re
import sys
import time
from typing import NamedTuple

from tools.checks import Checks
from tools.rows import playing, scripts

HERE = os.path.dirname(os.path.realpath(__file__))

HOPS = 2
SCRIPTS = 400
# The last asks, once the rounds are over: an update of a number that no script gives, and a read at
# each member.
LAST = "put {} 0 1000000 k0 recovered"
# At least 1 in LEFT scripts has to leave a ready member, and of these 1 in UNREADY also a member that
# is not ready.
LEFT, UNREADY = 2, 10


class Machine(NamedTuple):
    """A wrong machine, by what it leaves out: the messages that its ticks do not send, those that none
    of its steps sends, and the ticks of its master."""

    name: str
    at_ticks: tuple = ()
    ever: tuple = ()
    master: bool = True


RIGHT = Machine("the machine as it is")


class Example(NamedTuple):
    """A script of recoveries/, how many nodes begin, the members that it leaves, whether rounds
    bring about recovery, and a wrong machine whose rounds do not."""

    name: str
    nodes: int
    members: tuple
    recovers: bool = True
    wrong: Machine | None = None

    @property
    def lines(self):
        with open(os.path.join(HERE, "recoveries", f"{self.name}.script"), encoding="utf-8") as it:
            return it.read().splitlines()


EXAMPLES = (
    Example("a-join-cut-off-in-parts", 1, (1, 2)),
    Example("a-head-lost-with-an-entry-under-way", 3, (2, 3)),
    Example("a-tail-lost-twice", 3, (1,)),
    Example("no-ready-member", 1, (2,), recovers=False),
    Example("a-member-never-told", 2, (1,), wrong=Machine("a master that does not tick", master=False)),
    Example("an-acknowledgement-lost", 2, (1, 2),
            wrong=Machine("a tail that does not repeat its acknowledgement", at_ticks=("ack",))),
    Example("a-question-lost", 2, (1, 2),
            wrong=Machine("a node that asks once which version is committed", at_ticks=("query",))),
    Example("an-entry-lost", 2, (1, 2),
            wrong=Machine("a node that does not repeat its entries", at_ticks=("entry", "batch"))),
    Example("a-floor-lost", 1, (1, 2), wrong=Machine("a node that says no floor", ever=("floor",))),
)


class Ended(NamedTuple):
    """A script with its rounds, what is printed up to the end of the rounds, what both cores print
    of all, and what there was."""

    text: bytes
    quiet: bytes
    outputs: list
    ready: int
    members: list
    rounds: int


def messages(output):
    """Returns the receiver and the kind of each message, in the order of sending."""
    return [(int(to), kind.decode()) for to, kind in re.findall(rb"^m\d+ \d+>(\d+) (\w+)", output, re.M)]


def answers(output, node):
    """Returns the tickets that this node answered, and its last answer."""
    found = re.findall(rb"^answer %d (\d+) (.*)$" % node, output, re.M)
    return {int(it) for it, _ in found}, found[-1] if found else None


class Rounds:
    """A script that goes on by rounds."""

    def __init__(self, program, nodes, lines, members, machine=RIGHT):
        self.program, self.words = program, ["play", "--nodes", str(nodes)]
        self.lines, self.members, self.machine = list(lines), list(members), machine

    @property
    def text(self):
        return "".join(f"{it}\n" for it in self.lines).encode()

    def output(self):
        return playing.told(self.program, self.words, self.text).output

    def ready(self):
        """Returns how many members take a read: those that are ready."""
        before = self.output().count(b"\nanswer")
        self.lines += [f"read {it} eventual k0" for it in self.members]
        return self.output().count(b"\nanswer") - before

    def hop(self, first, unsent=()):
        """Delivers the messages from this number on, but none at a node that stopped. Returns the
        number of the next one."""
        sent = messages(self.output())
        for at, (to, kind) in enumerate(sent[first - 1 :], first):
            if to in self.members and kind not in (*unsent, *self.machine.ever):
                self.lines.append(f"deliver {at}")
        return len(sent) + 1

    def round(self):
        first = len(messages(self.output())) + 1
        self.lines += [*(["tick 0"] if self.machine.master else []), *(f"tick {it}" for it in self.members)]
        first = self.hop(first, self.machine.at_ticks)
        for _ in range(1, HOPS):
            first = self.hop(first)

    def last_asks(self):
        """Adds the last asks: an update, with the hops that it needs, and then a read at each
        member."""
        first = len(messages(self.output())) + 1
        self.lines.append(LAST.format(self.members[0]))
        for _ in range(2 * len(self.members) + 2):
            first = self.hop(first)
        self.lines += [f"read {it} eventual k0" for it in self.members]


def ended(it):
    """Returns the script with the rounds that its members need."""
    ready, rounds = it.ready(), 2 * len(it.members) + 2
    for _ in range(rounds):
        it.round()
    it.ready()
    quiet = it.output()
    it.last_asks()
    return Ended(it.text, quiet, [told.output for told in playing.on_both(it.program, it.words, it.text)],
                 ready, it.members, rounds)


def recovered(program, kind, seed):
    """Returns the script of this seed with such rounds, or None if no member is ready."""
    script, words = scripts.Script(kind, seed), ["play", "--nodes", str(kind.nodes)]
    for _ in range(random.Random(seed).randint(2, scripts.ROUNDS)):
        script.see(playing.told(program, words, script.text).output)
        script.grow()
    if script.stopped is not None:
        script.lines.append(script.removal())
    it = Rounds(program, kind.nodes, script.lines, script.members)
    return ended(it) if Rounds(program, kind.nodes, script.lines, script.members).ready() else None


def read_last(output, members):
    """Returns the reply of each member to its last ask, a read; None if a member refused it, or an
    earlier ask waits."""
    seen = []
    for node in members:
        tickets, last = answers(output, node)
        if last is None or tickets != set(range(1, int(last[0]) + 1)):
            return None
        seen.append(last[1])
    return seen


def is_served(it):
    """Returns whether, after the rounds, each member takes asks and none waits, and whether each
    one then reads what was written last."""
    if read_last(it.quiet, it.members) is None:
        return False
    seen = {*(read_last(it.outputs[0], it.members) or [])}
    return len(seen) == 1 and seen.pop().endswith(b" 0x" + b"recovered".hex().encode())


def worked_recoveries(checks, program, names=()):
    """Rounds after scripts of which it is known what they leave, and wrong rounds after some of them."""
    checks.same("the scripts of recoveries/", sorted(os.listdir(os.path.join(HERE, "recoveries"))),
                sorted(f"{it.name}.script" for it in EXAMPLES))
    chosen = [it for it in EXAMPLES if not names or it.name in names]
    cases = [(it, machine) for it in chosen for machine in (RIGHT, it.wrong) if machine is not None]
    ends = playing.side_by_side(lambda it: ended(Rounds(program, it[0].nodes, it[0].lines, it[0].members,
                                                        it[1])), cases)
    for (example, machine), it in zip(cases, ends):
        serve = example.recovers and machine is RIGHT
        checks.same(f"{example.name}, with rounds of {machine.name}", it.outputs[1], it.outputs[0])
        checks.same(f"{example.name}: its members serve after {it.rounds} rounds of {machine.name}",
                    is_served(it), serve)


def random_recoveries(checks, program, count):
    """Plays `count` scripts with rounds: both cores print the same, and each member serves in the end,
    with nothing left to answer."""
    cases = [(scripts.KINDS[seed % len(scripts.KINDS)], seed) for seed in range(count)]
    ended = [it for it in playing.side_by_side(lambda it: recovered(program, *it), cases)]
    for (kind, seed), it in zip(cases, ended):
        if it is not None:
            checks.same(f"script {seed} of {kind} with rounds", it.outputs[1], it.outputs[0])
            checks.that(is_served(it),
                        f"script {seed} of {kind}: {len(it.members)} members serve after {it.rounds} rounds")
    left = [it for it in ended if it is not None]
    unready = [it for it in left if it.ready < len(it.members)]
    checks.that(len(left) * LEFT >= count, f"{len(left)} of {count} scripts leave a ready member")
    checks.that(len(unready) * UNREADY >= len(left),
                f"{len(unready)} of {len(left)} leave one that is not ready")


def main(words):
    count, names = SCRIPTS, []
    if words[:1] == ["--scripts"] and len(words) > 1 and words[1].isdigit():
        count, words = int(words[1]), words[2:]
    if not words or words[0].startswith("-") or not {*words[1:]} <= {it.name for it in EXAMPLES}:
        print(__doc__, file=sys.stderr)
        return 2
    program, names = os.path.realpath(words[0]), words[1:]
    if not os.access(program, os.X_OK):
        print(f"recovery: there is no program {program}", file=sys.stderr)
        return 1
    checks, began = Checks("recovery", progress=True), time.time()
    checks.told("scripts that rounds follow", worked_recoveries, program, names)
    if not names:
        checks.told("random scripts that rounds follow", random_recoveries, program, count)
    print(f"recovery: {len(names) or len(EXAMPLES)} worked scripts and {0 if names else count} random ones, "
          f"with rounds, in {time.time() - began:.0f} s")
    print(f"{checks.passed} passed, {checks.failed} failed")
    return 1 if checks.failed else 0


if __name__ == "__main__":
    sys.exit(main(sys.argv[1:]))
