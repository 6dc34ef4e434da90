"""Each ask for memory, and each thread, refused in turn in a server that is asked meanwhile, in
each way of serving (refused.py tells how).

A server that has printed its port answers. An ask that it refuses when out of memory, or closes, is
asked again with its number: every ask has its answer in the end, no update is done twice, and the
audits confirm what was answered. In its end it may print `no memory`, of a connection or of an audit.
One that has not printed its port ends with `no memory` and nothing else.
"""
import re
import subprocess
import tempfile
import time
from typing import NamedTuple

from tools.end_to_end import running
from tools.hostile import refused
from tools.hostile.asked import example
from tools.rows import playing

# The client, its number of connections, how often it asks again, and the seconds that it waits.
CLIENT, CONNECTIONS, AGAIN, PATIENCE = 77, 24, 12, 10
OPEN = (example.STOPPED, example.MEMORY, example.CLOSED)
# Number of requests for memory that are refused in a server, and of threads.
MEMORY, THREADS = 2_000, 40


class Ended(Exception):
    """The server has ended."""


class Asker:
    """A client that asks again, under its number, what was refused when out of memory or had no reply."""

    def __init__(self, server):
        self.server, self.connection, self.shown, self.asked, self.number = server, None, 0, 0, 0

    def asks(self, request):
        """Returns the last reply to a request."""
        for _ in range(AGAIN):
            try:
                if not self.connection:
                    if self.server.left <= 1:
                        raise TimeoutError("all connections were used")
                    self.server.counts()
                    self.connection = example.Connection(self.server.address, PATIENCE)
                self.connection.send(example.one(2, request))
                self.asked += 1
                [(shown, told)] = example.replies_of(self.connection.receive())
            except OSError:
                self.close()
                time.sleep(0.01)
                if not self.server.runs():
                    raise Ended from None
                continue
            self.shown = max(self.shown, shown or 0)
            if not (isinstance(told, example.Refused) and told.number in OPEN):
                return told
        raise TimeoutError(f"no answer to {request} after {AGAIN} times")

    def updates(self, command):
        self.number += 1
        return self.asks(example.update_request(1, self.shown, CLIENT, self.number, command))

    def reads(self, node, key):
        return self.asks(example.read_request(node, self.shown, example.STRONG, 0, key))

    def close(self):
        if self.connection:
            self.connection.close()
        self.connection = None


# Number of rounds of a put and a read at each node that come last, and of all asks of the chain.
ROUNDS = 24
ASKS = 11 + 4 * ROUNDS


def answers(asker):
    """Yields each ask in words, its reply, and the reply that it should have."""
    Read, Written = example.Read, example.Written
    yield "a put", asker.updates(example.put(0, "k", b"a")), Written(1)
    yield "an append", asker.updates(example.append(0, "k", b"b" * 300)), Written(2)
    yield "an increment", asker.updates(example.increment(0, "n", 7)), Written(1)
    mini = example.mini(0, [("n", 1)], ["k"], [("z", b"1")])
    yield "a transaction", asker.updates(mini), example.Done([Read(2, b"a" + b"b" * 300)])
    asker.close()
    yield "a decrement", asker.updates(example.decrement(0, "n", 2)), Written(2)
    for node in 1, 2, 3:
        yield f"a read at {node}", asker.reads(node, "k"), Read(2, b"a" + b"b" * 300)
        yield f"another read at {node}", asker.reads(node, "n"), Read(2, (5).to_bytes(8, "big"))
    yield "the status", asker.asks((example.STATUS, b"")), running.STATUS
    for at in range(ROUNDS):
        value = b"%d" % at
        yield f"put {at}", asker.updates(example.put(0, f"round-{at}", value)), Written(1)
        for node in 1, 2, 3:
            yield f"a read at {node} after put {at}", asker.reads(node, f"round-{at}"), Read(1, value)


class Run(NamedTuple):
    """A run of a server with something refused: the faults that were found, its status, whether it
    printed its port, and whether something was refused."""

    faults: list
    status: int
    listened: bool
    refused: bool


def ended(server):
    """Makes the connections that are left, and returns what the server printed as it ended."""
    while server.left > 0 and server.runs():
        try:
            server.connect().close()
        except OSError:
            time.sleep(0.01)
    try:
        out, err = server.process.communicate(timeout=PATIENCE)
    except subprocess.TimeoutExpired:
        return None, server.first, "it does not end"
    return server.process.returncode, server.first + out.decode(), err.decode()


def audited(out, answered, asked, is_whole):
    """Returns whether the end of a server's output confirms at least `answered` asks of chain 0, and at
    most `asked`. If the output need not be whole, an audit may be lacking."""
    found = re.fullmatch(r"(?:audit merged ([0-9]+)\n(audit merged 0\n)?)?", out)
    return bool(found) and (found[2] or not is_whole) and (not found[1] or answered <= int(found[1]) <= asked)


def asked_all(asker):
    """Returns the faults of the answers that came, and how many asks of the chain had the right one.
    Ends when all came, or when the server ended, which is a fault."""
    faults, right = [], 0
    try:
        for what, found, wanted in answers(asker):
            right += found == wanted and what != "the status"
            faults += [] if found == wanted else [f"{what}: found {found}, wanted {wanted}"]
    except (Ended, TimeoutError, example.BadReply) as failure:
        faults.append(repr(failure))
    asker.close()
    return faults, right


def served(craqd, env):
    """Asks a server while something is refused."""
    server = running.Server(craqd, running.PLAN, CONNECTIONS, env=env)
    asker = Asker(server)
    try:
        faults, right = asked_all(asker) if server.port else ([], 0)
        told = ended(server)
    finally:
        server.kill()
    status, out, err = told
    has_no_memory = (status, re.sub(server.served(), "", err, count=1)) == (refused.NO_MEMORY, "no memory\n")
    is_well = has_no_memory or re.fullmatch(server.served(), err) and status == 0
    if server.port:
        is_well = is_well and right == ASKS and audited(out[len(server.first):], right, asker.asked,
                                                        not has_no_memory)
    else:
        is_well = has_no_memory and not out
    if not is_well:
        faults.append(f"it ended with {told}, after {right} right answers")
    return Run(faults, status, bool(server.port), refused.told_in(env).refused)


def attacked(checks, library, craqd, what, count, name):
    """Runs one server for each number up to this, in which that ask for memory or thread is
    refused. Returns in how many it was refused once they listened, and a summary in words."""
    numbers = range(1, count + 1)
    runs = playing.side_by_side(lambda at: served(craqd, library.refusing(**{what: at})), numbers)
    for at, run in zip(numbers, runs):
        checks.that(not run.faults, f"{what} {at} refused in craqd: {run.faults}")
    met = [it for it in runs if it.refused]
    early, in_the_end = sum(not it.listened for it in met), sum(it.listened and it.status == refused.NO_MEMORY
                                                                for it in met)
    checks.that(early > 0, f"some {name} are refused before craqd listens")
    told = f"{len(met)} {name} refused, {early} of them before it listened"
    return len(met) - early, f"{told}, and {in_the_end} that it reported at its end"


def all_of(checks, library, craqd):
    """Refuses each ask for memory and each thread in one way of serving, and returns what was
    tried, in words."""
    checks.same("craqd with ample memory", served(craqd, library.refusing()), Run([], 0, True, False))
    late, memory = attacked(checks, library, craqd, "memory", MEMORY, "allocations")
    checks.that(late > MEMORY // 2,
                f"more than half of {MEMORY} asks for memory are refused after craqd listens: {late}")
    return f"{memory}; {attacked(checks, library, craqd, 'thread', THREADS, 'threads')[1]}"


def tried(checks, craqd):
    """Tries all of them in each way of serving, and returns what was tried, in words."""
    with tempfile.TemporaryDirectory(prefix="refused-") as folder:
        library = refused.Library(folder)
        return running.in_each_way(checks, lambda: all_of(checks, library, craqd))
