"""craqd, in each way of serving, among clients that send what is no request, or a part of one:
after each of them it answers another client at once, and within a second it has as many threads and
open files as before, and hardly more memory. Where a client sends many frames on one connection,
that is looked at after each 500 of them, as the connection ends.

Of a thousand waits one may be longer than a second, since a machine may pause; none is longer than
ten. What may be said to bytes is read from docs/use/BYTES.md by asked.py. A changed byte often
makes another request, which is then done: so the server's objects grow by some thousands, and what
it is given to grow by in memory allows for those.
"""
import os
import random
import re
import socket
import time

from tools.end_to_end import running
from tools.hostile import asked
from tools.hostile.asked import example
from tools.sockets import framed, read_to_end, read_up_to

# Seconds that another client waits for its replies; and seconds within which threads, files and memory
# have to be back.
AT_ONCE, PATIENCE = 1.0, 10.0
# One of this many waits may be longer.
OFTEN = 1_000
# MiB by which the server may have grown in the end.
GROWTH = 24
GARBAGE = (b"\xff" * 64, b"\0" * 64, random.Random(3).randbytes(64))
QUIET = 0.1
# A connection ends after this many frames, and another is made.
FRAMES = 500


class Other:
    """The other client: it counts up an object that nobody else writes, and reads it at the tail."""

    def __init__(self, server):
        self.client, self.count = example.Client(server.address, 2, tries=1), 0

    def is_answered(self):
        """Returns whether both of its calls get the right reply."""
        self.count += 1
        wrote, read = self.client.inc("other", node=1), self.client.read("other", node=3)
        count = self.count
        return wrote == example.Written(count) and read == example.Read(count, count.to_bytes(8, "big"))


class Attacked:
    """A server, the other client, and what the server has where nobody attacks it."""

    def __init__(self, checks, craqd):
        self.checks, self.attacks, self.waits = checks, 0, []
        self.server = running.Server(craqd, running.PLAN, 2**32 - 1, journal=False)
        self.other = Other(self.server)
        for _ in range(200):
            self.other.is_answered()
        self.before, self.memory = self.has(), self.server.memory()

    def has(self):
        """Returns the numbers of its threads and of its open files."""
        with open(f"/proc/{self.server.process.pid}/status", encoding="ascii", errors="replace") as it:
            threads = int(re.search(r"Threads:\s+(\d+)", it.read())[1])
        return threads, len(os.listdir(f"/proc/{self.server.process.pid}/fd"))

    def connect(self):
        """Returns a connection from one of some addresses, since an address has few ports and a port
        rests for a minute."""
        self.attacks += 1
        made = socket.create_connection(("127.0.0.1", self.server.port), running.PATIENCE,
                                        (f"127.0.0.{2 + self.attacks % 100}", 0))
        made.setsockopt(socket.IPPROTO_TCP, socket.TCP_NODELAY, 1)
        return made

    def goes_on(self, what):
        """Checks that it answers the other client."""
        began = time.monotonic()
        self.checks.that(self.other.is_answered(), f"after {what} another client is answered")
        self.waits.append(time.monotonic() - began)

    def waited(self, holds):
        """Waits until that holds, ten seconds at most, and counts how long that took."""
        began = time.monotonic()
        while not holds() and time.monotonic() < began + PATIENCE:
            time.sleep(0.002)
        self.waits.append(time.monotonic() - began)

    def comes_back(self, what):
        """Checks that the server has as many threads and files again as before."""
        self.waited(lambda: self.has() == self.before)
        self.checks.same(f"threads and files after {what}", self.has(), self.before)

    def is_small(self, what):
        """Checks that it has hardly more memory than before."""
        self.waited(lambda: self.server.memory() <= self.memory + GROWTH)
        grown = self.server.memory() - self.memory
        self.checks.that(grown <= GROWTH, f"after {what} it has {grown:.0f} MiB more than before")

    def said_to(self, sent):
        """Returns all that it sends for these bytes and their end."""
        with self.connect() as made:
            try:
                made.sendall(sent)
                made.shutdown(socket.SHUT_WR)
            except OSError:
                pass
            return read_to_end(made)

    def hears(self, what, sent):
        """Checks that it sends for these bytes what it may, and is as before."""
        said = self.said_to(sent)
        self.checks.that(asked.are_replies(said, sent), f"{what}, {sent[:80].hex()}: found {said[:80].hex()}")
        self.goes_on(what)
        self.comes_back(what)

    def ends(self):
        """Checks that it still runs, and that no client waited long; then ends it."""
        self.checks.that(self.server.runs(), "the server runs to the end")
        late = sum(it > AT_ONCE for it in self.waits)
        self.checks.that(late * OFTEN <= len(self.waits) and max(self.waits) <= PATIENCE,
                         f"{late} of {len(self.waits)} waits were longer than {AT_ONCE} s, one "
                         f"{max(self.waits):.1f} s")
        self.other.client.close()
        self.server.kill()


def cut(attacked, requests):
    """Sends every part of each request that begins where the request begins, and then the end,
    silence, or garbage. Returns how many were sent."""
    made = 0
    for payload in requests:
        frame, what = framed(payload), f"a part of {payload[:2].hex()} .. {payload[-12:].hex()}"
        for size in range(len(frame) + 1):
            attacked.hears(f"{what}, {size} bytes and the end", frame[:size])
            for garbage in GARBAGE:
                attacked.hears(f"{what}, {size} bytes and garbage", frame[:size] + garbage)
        silent = [attacked.connect() for _ in frame]
        for size, it in enumerate(silent):
            it.sendall(frame[:size])
        time.sleep(QUIET)
        attacked.goes_on(f"{what} and silence, in {len(silent)} connections at once")
        for size, it in enumerate(silent):
            is_silent(attacked, f"{what}, {size} bytes and silence", it)
        attacked.comes_back(f"{what} and silence")
        attacked.is_small(what)
        made += (len(GARBAGE) + 1) * (len(frame) + 1) + len(frame)
    return made


def is_silent(attacked, what, made):
    """Checks that the server sent nothing to this connection, and closes it."""
    made.setblocking(False)
    try:
        said = made.recv(1)
    except BlockingIOError:
        said = None
    attacked.checks.same(what, said, None)
    made.close()


class Kept:
    """A connection that sends one frame after another, and reads one reply to each; after many a new one."""

    def __init__(self, attacked, name):
        self.attacked, self.name, self.made, self.sent = attacked, name, attacked.connect(), 0

    def asks(self, what, payload):
        """Checks that the reply to this payload is one that it may get, and that the other client
        is answered."""
        try:
            self.made.sendall(framed(payload))
            said = taken(self.made, int.from_bytes(taken(self.made, 4), "big"))
        except (OSError, EOFError) as failure:
            said = repr(failure).encode()
            self.made.close()
            self.made = self.attacked.connect()
        self.attacked.checks.that(asked.is_reply(said, payload),
                                  f"{what}, {payload[:80].hex()}: found {said[:80].hex()}")
        self.attacked.goes_on(what)
        self.sent += 1
        if self.sent % FRAMES == 0:
            self.close()
            self.made = self.attacked.connect()

    def close(self):
        self.made.close()
        self.attacked.comes_back(self.name)
        self.attacked.is_small(self.name)


def taken(made, size):
    """Reads this many bytes. Raises EOFError if the server closes before."""
    got = read_up_to(made, size)
    if len(got) < size:
        raise EOFError("the server closed the connection")
    return got


def one_of_each(requests):
    """Returns one request of each kind: the first of those with one version, kind and command, and
    none that another version has too."""
    found = {}
    for payload in requests:
        found.setdefault((payload[1], payload[30:31] if payload[1] == asked.UPDATE else payload[14:15]),
                         payload)
    return list(found.values())


def changes(frame, places, values):
    """Yields the frame with the byte at each of these places set to each of these values, after its
    name."""
    for at in places:
        for value in values:
            yield f"byte {at} set to {value}", frame[:at] + bytes([value]) + frame[at + 1:]


def changed(attacked, requests, values):
    """Sends each request with each byte set to each value, those of the length in connections of
    their own. Returns how many were sent."""
    made = 0
    for payload in requests:
        frame, of = framed(payload), f"of {payload[:2].hex()} .. {payload[-12:].hex()}"
        for what, other in changes(frame, range(4), values):
            attacked.hears(f"{what} {of}", other)
        kept = Kept(attacked, f"changes {of}")
        for what, other in changes(frame, range(4, len(frame)), values):
            kept.asks(f"{what} {of}", other[4:])
        kept.close()
        made += len(frame) * len(values)
    return made


def drawn(draw, requests):
    """Draws a payload: random bytes, or a request that was changed in a few places, cut, or made
    longer."""
    pick = draw.randrange(4)
    if pick == 0:
        return draw.randbytes(draw.randrange(300))
    if pick == 1:
        return bytes([draw.randint(1, 2), draw.randint(1, 4)]) + draw.randbytes(draw.randrange(300))
    it = bytearray(draw.choice(requests))
    if pick == 2:
        for _ in range(draw.randint(1, 4)):
            it[draw.randrange(len(it))] = draw.choice([0, 1, 2, 127, 128, 254, draw.randrange(256)])
        return bytes(it)
    at = draw.randrange(len(it))
    return bytes(it[:at]) + draw.randbytes(draw.randrange(4)) + bytes(it[at + draw.randrange(4):])


def random_frames(attacked, requests, count):
    """Sends `count` frames with payloads that are drawn, and returns the number that was sent."""
    draw, kept = random.Random(4), Kept(attacked, "random frames")
    for at in range(count):
        kept.asks(f"random frame {at}", drawn(draw, requests))
    kept.close()
    return count


def tried(checks, craqd):
    """Runs all attacks in each way of serving, and returns what was tried, in words."""
    requests = asked.requests()
    checks.that(len({it[:2] for it in requests}) == 7,
                "docs/use/BYTES.md has requests of each version and kind")
    return running.in_each_way(checks, lambda: served(checks, craqd, requests))


def served(checks, craqd, requests):
    """Runs all attacks on one server, and returns what was tried, in words."""
    attacked = Attacked(checks, craqd)
    try:
        cuts = cut(attacked, requests)
        bytes_set = changed(attacked, one_of_each(requests), range(256))
        frames = random_frames(attacked, requests, 10_000)
        grown = attacked.server.memory() - attacked.memory
        attacked.ends()
    finally:
        attacked.server.kill()
    waits = (f"another client was answered {attacked.other.count} times; the longest of "
             f"{len(attacked.waits)} "
             f"waits had {max(attacked.waits):.3f} s")
    return (f"{cuts} cut requests, {bytes_set} changed bytes, {frames} random frames; {waits}, "
            f"and {grown:.1f} MiB were added")
