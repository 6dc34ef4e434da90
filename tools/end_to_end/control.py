"""craqd --control: nodes stop, go and join while clients go on, and what it answers to each line."""
import re
import subprocess
import threading
import time

from tools import plain_client as example
from tools.end_to_end import running

# Number of nodes that are replaced; CLIENTS at once count up and read in each chain, each at least
# STEPS times in a round, and pause PAUSE seconds after each.
ROUNDS, CLIENTS, STEPS, PAUSE = 100, 2, 3, 0.002
# Tries of a request, whose pauses grow to seconds: a chain stands still from a stop to the removal.
TRIES = 20
PLAN = "".join(
    f'[[chain]]\nname = "{name}"\nnodes = {nodes}\n\n'
    for name, nodes in (("left", [1, 2, 3]), ("middle", [1, 2, 3]), ("right", [7, 8, 9]))
)
NODE = "CHAIN/NODE, the name or the index of a chain and a number from 1 to 4294967295"
VERB = "one of stop, remove, join, status and help"
END = "the end of the words"

# Lines for a server of the plan of `running`, and what is answered to each, in this order.
ROWS = [
    ("", []),
    ("   ", []),
    (
        "status",
        [
            "chain a, index 0, epoch 1, node 1 ready, node 2 ready, node 3 ready",
            "chain b, index 1, epoch 1, node 4 ready, node 5 ready",
        ],
    ),
    ("halt", [f"control: expected {VERB}, and found 'halt'"]),
    ("stop", [f"control: expected {NODE}, and found {END}"]),
    ("stop a", [f"control: expected {NODE}, and found 'a'"]),
    ("stop c/1", [f"control: expected {NODE}, and found 'c/1'"]),
    ("stop 2/1", [f"control: expected {NODE}, and found '2/1'"]),
    ("stop a/0", [f"control: expected {NODE}, and found 'a/0'"]),
    ("stop a/4294967296", [f"control: expected {NODE}, and found 'a/4294967296'"]),
    ("stop a/1/1", [f"control: expected {NODE}, and found 'a/1/1'"]),
    ("stop a/1 now", ["control: expected --force or the end of the line, and found 'now'"]),
    ("stop a/1 --force x", ["control: expected no more words, and found 'x'"]),
    ("remove a/1 --force", ["control: expected no more words, and found '--force'"]),
    ("status a", ["control: expected no more words, and found 'a'"]),
    ("help me", ["control: expected no more words, and found 'me'"]),
    ("x" * 256, [f"control: expected {VERB}, and found '{'x' * 256}'"]),
    ("x" * 257, ["control: expected a line of at most 256 bytes"]),
    ("stop a/1 " + " " * 300, ["control: expected a line of at most 256 bytes"]),
    (b"stop a/\xff", ["control: expected a line of text in UTF-8"]),
    ("stop a/9", ["a/9 not stopped: refused 23, there is no such node here"]),
    ("remove a/9", ["a/9 not removed: refused 17, the node is not a member of the chain"]),
    ("remove a/1", ["a/1 not removed: refused 18, the member is not stopped"]),
    ("join a/2", ["a/2 not joined: refused 19, the node id was used in this chain before"]),
    ("  stop   a/1  ", ["a/1 stopped"]),
    ("stop 0/1", ["a/1 not stopped: refused 11, the node is stopped"]),
    ("stop a/3", ["a/3 stopped"]),
    ("stop a/2", ["a/2 not stopped: it is the last ready member of its chain; --force stops it"]),
    (
        "status",
        [
            "chain a, index 0, epoch 1, node 1 stopped, node 2 ready, node 3 stopped",
            "chain b, index 1, epoch 1, node 4 ready, node 5 ready",
        ],
    ),
    ("remove 0/1", ["a/1 removed"]),
    ("remove a/3", ["a/3 removed"]),
    ("stop a/2", ["a/2 not stopped: it is the last ready member of its chain; --force stops it"]),
    ("stop a/2 --force", ["a/2 stopped"]),
    ("remove a/2", ["a/2 not removed: refused 21, the only member of a chain cannot be removed"]),
    ("stop 1/4", ["b/4 stopped"]),
    ("remove b/4", ["b/4 removed"]),
    *((f"join b/{it}", [f"b/{it} joined"]) for it in range(10, 17)),
    ("join b/17", ["b/17 not joined: refused 20, a chain has at most 8 members"]),
]


class Controlled:
    """A craqd that takes control lines, and its answers."""

    def __init__(self, craqd, plan, *options):
        self.file = running.text_file(plan)
        words = [craqd, "--control", *running.OPTIONS, *options, self.file.name, "127.0.0.1:0"]
        self.process = subprocess.Popen(
            words, stdin=subprocess.PIPE, stdout=subprocess.PIPE, stderr=subprocess.PIPE
        )
        found = re.fullmatch(rb"listening ([1-9][0-9]*)\n", self.process.stdout.readline())
        self.port = int(found[1]) if found else 0
        self.began = self.answer()

    def __enter__(self):
        return self

    def __exit__(self, *_):
        if self.process.poll() is None:
            self.process.kill()
            self.process.wait()
        self.file.close()

    def answer(self):
        return self.process.stderr.readline().decode().rstrip("\n")

    def ask(self, line, answers=1):
        """Sends a line, and returns its answer, which has `answers` lines."""
        self.process.stdin.write((line if isinstance(line, bytes) else line.encode()) + b"\n")
        self.process.stdin.flush()
        return [self.answer() for _ in range(answers)]

    def finish(self):
        """Ends the lines, and returns the status and what is printed then."""
        out, err = self.process.communicate(timeout=running.PATIENCE)
        return self.process.returncode, out.decode(), err.decode()


def lines(checks, craqd):
    """Each line has its answer. A line without one is followed by a line that has one."""
    with Controlled(craqd, running.PLAN, "--journal") as server:
        for line, wanted in ROWS:
            checks.same(f"control line {line!r}", server.ask(line, len(wanted)), wanted)
        help_text = server.ask("help", 5)
        checks.that(
            all(
                re.match(f"{verb} ", it)
                for verb, it in zip(("stop", "remove", "join", "status", "help"), help_text)
            ),
            f"help names the lines: {help_text}",
        )
        checks.same(
            "a server after its control lines", server.finish(), (0, "audit merged 0\naudit merged 0\n", "")
        )


def last_line(checks, craqd):
    """A line without its end is run before the server ends."""
    with Controlled(craqd, running.PLAN) as server:
        server.process.stdin.write(b"stop a/1\nremove a/1")
        checks.same("lines at the end of the input", server.finish(), (0, "", "a/1 stopped\na/1 removed\n"))


def ended_otherwise(checks, craqd):
    """A server whose connections are over ends although its standard input stays open."""
    with Controlled(craqd, running.PLAN, "--connections", "1") as server:
        example.Client(f"127.0.0.1:{server.port}").close()
        try:
            checks.same(
                "the status of a server with open control lines", server.process.wait(running.PATIENCE), 0
            )
        except subprocess.TimeoutExpired:
            checks.that(False, "a server with open control lines ends after its last connection")


class Counter(threading.Thread):
    """A client that counts an object of its own up, and reads it at some member after each step."""

    def __init__(self, port, chain, key, over):
        super().__init__()
        self.port, self.chain, self.key, self.over = port, chain, key, over
        self.count, self.fault = 0, None

    def run(self):
        try:
            with example.Client(f"127.0.0.1:{self.port}", tries=TRIES) as client:
                while not self.over.is_set():
                    self.step(client)
                    time.sleep(PAUSE)
                self.look(client)
        except Exception as failure:
            self.fault = repr(failure)

    def step(self, client):
        told = client.inc(self.key, chain=self.chain)
        self.count += 1
        if told != example.Written(self.count):
            raise ValueError(f"count {self.count} of {self.key} was answered {told}")
        self.look(client)

    def look(self, client):
        found = client.read(self.key, chain=self.chain)
        if found != example.Read(self.count, self.count.to_bytes(8, "big")):
            raise ValueError(f"{self.key} was read as {found} after {self.count} counts")


def ready(server, name, node):
    """Waits until the node is ready. Returns whether it is."""
    ends = time.time() + running.PATIENCE
    while time.time() < ends:
        told = {it.split(",")[0].split()[1]: it for it in server.ask("status", 3)}
        if f", node {node} ready" in told[name]:
            return True
        time.sleep(0.01)
    return False


def counted(counters, chain):
    """Waits until each client of a chain has counted up STEPS times more, or has stopped."""
    wanted = [(it, it.count + STEPS) for it in counters if it.chain == chain]
    ends = time.time() + running.PATIENCE
    while any(it.is_alive() and it.count < count for it, count in wanted) and time.time() < ends:
        time.sleep(0.002)


def replaced(checks, server, counters, rounds):
    """Stops and removes a node of one chain after another, at each place, and lets another join."""
    chains = {"left": [1, 2, 3], "middle": [1, 2, 3], "right": [7, 8, 9]}
    for done in range(rounds):
        name = list(chains)[done % 3]
        old, new = chains[name][done // 3 % 3], 10 + done
        answers = [
            server.ask(f"{verb} {name}/{node}")
            for verb, node in (("stop", old), ("remove", old), ("join", new))
        ]
        checks.same(
            f"round {done}",
            answers,
            [[f"{name}/{old} stopped"], [f"{name}/{old} removed"], [f"{name}/{new} joined"]],
        )
        if not ready(server, name, new):
            checks.that(False, f"{name}/{new} is ready within {running.PATIENCE} s")
            return
        chains[name].remove(old)
        chains[name].append(new)
        counted(counters, done % 3)


def under_load(checks, craqd, rounds=ROUNDS):
    """No request is lost, none is done twice, and each audit is one run."""
    with Controlled(craqd, PLAN, "--journal") as server:
        over = threading.Event()
        counters = [
            Counter(server.port, chain, f"count-{chain}-{it}", over)
            for chain in range(3)
            for it in range(CLIENTS)
        ]
        for it in counters:
            it.start()
        try:
            replaced(checks, server, counters, rounds)
        finally:
            over.set()
            for it in counters:
                it.join()
        for it in counters:
            checks.same(f"{it.key}: what stopped it", it.fault, None)
            checks.that(it.count >= STEPS * (rounds // 3), f"{it.key}: {it.count} counts in {rounds} rounds")
        status, out, err = server.finish()
        merged = re.fullmatch("audit merged ([0-9]+)\n" * 3, out)
        checks.that(
            status == 0 and merged and not err, f"status {status}, audits {out!r}, standard error {err!r}"
        )
        for chain in range(3) if merged else ():
            counts = sum(it.count for it in counters if it.chain == chain)
            checks.that(
                int(merged[chain + 1]) >= 2 * counts,
                f"chain {chain}: {merged[chain + 1]} receipts of {2 * counts} replies",
            )
        return sum(it.count for it in counters)


def tried(checks, craqd, rounds=ROUNDS):
    for part in lines, last_line, ended_otherwise:
        checks.part(f"control: {part.__name__.replace('_', ' ')}", part, craqd)
    checks.part("control: under load", under_load, craqd, rounds)
