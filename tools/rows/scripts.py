"""Scripts that a seed determines, each played with either core.

A script is written a few lines at a time. What they print is looked at before the next are written,
so that the script knows which messages there are.
"""
import random
import re
from typing import NamedTuple

from tools.rows import playing

VALUES = ("0x", "a", "bc", "0x0000000000000007", "0xff00")
# Words that the random scripts have to produce, all of them together.
KINDS_SENT = ["ack", "batch", "blank", "config", "copy", "entry", "floor", "part", "query", "version"]
REASONS = ["AlreadyHave", "NotReadyHere", "OtherEpoch", "OutOfOrder", "UnknownTicket"]
MOST_MEMBERS = 5
ROUNDS, LINES = 12, 20
# Number of asks of a script that are answered at least, on average.
ANSWERS = 40


class Kind(NamedTuple):
    """Numbers by which scripts are drawn."""

    nodes: int
    objects: int
    clients: int
    # Number of objects written before anything else: a state of more than 64 is sent in parts.
    written: int


KINDS = (Kind(3, 3, 3, 0), Kind(1, 150, 30, 70), Kind(2, 3, 2, 0), Kind(5, 4, 2, 0))


class Script:
    """A script that grows, and what is known of the chain that plays it."""

    def __init__(self, kind, seed):
        self.kind, self.draw = kind, random.Random(seed)
        self.lines, self.asked = [], 0
        self.members, self.stopped = list(range(1, kind.nodes + 1)), None
        self.ids = kind.nodes
        # The number of messages that were sent as far as is known, and the next one to arrive in its turn.
        self.sent, self.next = 0, 1
        for at in range(kind.written):
            self.lines.append(f"put 1 {at % kind.clients} {at // kind.clients + 1} k{at} a")

    @property
    def text(self):
        return "".join(f"{it}\n" for it in self.lines).encode()

    def node(self):
        """Draws a node that the chain may have had."""
        if self.draw.random() < 0.9:
            return self.draw.choice(self.members)
        return self.draw.randint(1, self.ids + 1)

    def object(self):
        return f"k{self.draw.randrange(self.kind.objects)}"

    def value(self):
        return self.draw.choice(VALUES)

    def objects(self, most):
        """Draws at most `most` objects, none twice."""
        return list(dict.fromkeys(self.object() for _ in range(self.draw.randint(0, most))))

    def mini(self):
        """Draws a transaction that compares, reads and writes a few objects."""
        items = [f"c:{it}:{self.draw.randint(0, 3)}" for it in self.objects(1)]
        items += [f"r:{it}" for it in self.objects(2)] + [f"w:{it}:{self.value()}" for it in self.objects(2)]
        return " ".join(items or ["w:k0:a"])

    def update(self):
        """Draws an update, at the head as a rule. Later ones have higher numbers as a rule."""
        node = self.members[0] if self.draw.random() < 0.9 else self.node()
        number = max(1, self.asked // self.kind.clients + self.draw.randint(-2, 4)
                     + self.kind.written // self.kind.clients)
        self.asked += 1
        who = f"{node} {self.draw.randrange(self.kind.clients)} {number}"
        pick = self.draw.choice(["put", "put", "append", "prepend", "tas", "inc", "dec", "mini"])
        if pick == "mini":
            return f"mini {who} {self.mini()}"
        more = {"tas": f"{self.draw.randint(0, 4)} {self.value()}", "inc": str(self.draw.randint(0, 9)),
                "dec": str(self.draw.randint(0, 9))}
        return f"{pick} {who} {self.object()} {more.get(pick) or self.value()}"

    def read(self):
        mode = self.draw.choice(["strong", "strong", "eventual", "bounded:1"])
        return f"read {self.node()} {mode} {self.object()}"

    def tick(self):
        return f"tick {self.node() if self.draw.randrange(6) else 0}"

    def delivery(self):
        """Draws the next delivery: a message in its turn, of which some are left out, or another
        one."""
        pick = self.draw.randrange(12)
        if pick == 0:
            return f"deliver {self.draw.randint(0, self.sent + 1)}"
        if pick == 1:
            return f"deliver {max(1, self.sent - self.draw.randrange(6))}"
        self.next += pick == 2
        self.next += 1
        return f"deliver {self.next - 1}"

    def removal(self):
        """Draws a stop, or a removal of the node that stopped; a tick if few are left."""
        if self.stopped is not None:
            node, self.stopped = self.stopped, None
            self.members.remove(node)
            return f"remove {node}"
        if len(self.members) <= 2:
            return self.tick()
        self.stopped = self.draw.choice(self.members)
        return f"stop {self.stopped}"

    def join(self):
        """Draws a join of a node whose id is the next, or was used."""
        if len(self.members) >= MOST_MEMBERS:
            return self.tick()
        if self.draw.randrange(5) == 0:
            return f"join {self.draw.randint(1, self.ids)}"
        self.ids += 1
        self.members.append(self.ids)
        return f"join {self.ids}"

    def line(self):
        pick = self.draw.randrange(100)
        for most, choose in ((18, self.update), (28, self.read), (32, self.tick), (33, self.removal),
                             (34, self.join)):
            if pick <= most:
                return choose()
        return self.delivery() if self.next <= self.sent or pick < 40 else self.update()

    def grow(self):
        self.lines += [self.line() for _ in range(LINES)]

    def see(self, output):
        """Notes how many messages were sent, by the output of the lines so far."""
        self.sent = output.count(b"\nm") + output.startswith(b"m")


def played(program, kind, seed):
    """Returns the script of this seed, and what either core prints of it."""
    script, words = Script(kind, seed), ["play", "--nodes", str(kind.nodes)]
    for _ in range(ROUNDS):
        script.see(playing.told(program, words, script.text).output)
        script.grow()
    script.lines.append("explain")
    return script.text, playing.on_both(program, words, script.text)


def sights(outputs):
    """Returns the kinds of messages that were sent, and the reasons for which one was ignored."""
    text = b"\n".join(outputs)
    kinds = {it.decode() for it in re.findall(rb"^m\d+ \d+>\d+ (\w+)", text, re.M)}
    return sorted(kinds), sorted({it.decode() for it in re.findall(rb"^ignored (\w+)", text, re.M)})


def random_scripts(checks, program, count):
    """Plays `count` scripts: both cores print the same. In all of them each kind of message is sent,
    and asks are answered."""
    cases = [(KINDS[seed % len(KINDS)], seed) for seed in range(count)]
    outputs = []
    plays = playing.side_by_side(lambda it: played(program, *it), cases)
    for (kind, seed), (text, (plain, other)) in zip(cases, plays):
        checks.that(plain.status == 0 and not plain.errors,
                    f"script {seed} of {kind} is played: {plain.errors}")
        checks.same(f"script {seed} of {kind}", other, plain)
        outputs.append(plain.output)
    kinds, reasons = sights(outputs)
    checks.same("the kinds of messages that were sent", kinds, KINDS_SENT)
    checks.that({*REASONS} <= {*reasons}, f"the reasons for which one was ignored: {reasons}")
    answers = sum(it.count(b"\nanswer") for it in outputs)
    checks.that(answers >= ANSWERS * count, f"{answers} asks were answered")
