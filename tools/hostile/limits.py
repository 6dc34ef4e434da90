"""craqd among more clients than it can hold, and where the system gives it no more: it answers an
honest client all the while, what it answers is right, and once the others and the limits are gone
it serves as before.

    crowd    1,000 connections that hold a request but its last byte, 200 that send and never read,
             200 a second that connect and leave. Of an honest client's calls meanwhile 99 of 100
             take at most 3 times as long as among as many idle connections, in each way of serving,
             or 2 ms where each connection has a thread. Those who never read have the segments of
             an Ethernet, or those of the loopback. For each of them the system holds no more bytes
             of replies than docs/use/SERVER.md says
    greedy   a client that sends and reads as fast as it can, so that the system would give its
             connection more and more room, and then sends and never reads: the system holds no more
             bytes for it, in either direction, than docs/use/SERVER.md says
    halves   1,000 connections that sent the length of a request and no more, and 100 that sent all
             of one of 1 MiB but its last byte: they take as much memory as docs/use/SERVER.md says,
             in each way of serving
    limits   the system gives the running server no more memory (RLIMIT_AS), no more open files
             (RLIMIT_NOFILE), no more threads (RLIMIT_NPROC; this needs the rights to start it under
             another user), in each way of serving: it refuses, or closes connections, and some
             calls are left open. Nothing that it answered is lost. With --threads it needs no
             thread for a connection, and answers all
    most     one connection more than `--most` is closed without a reply
"""
import multiprocessing
import os
import re
import resource
import select
import socket
import subprocess
import threading
import time

from tools.end_to_end import running
from tools.hostile import asked
from tools.hostile.asked import example
from tools.sockets import framed

HALF, MUTE, LEAVERS = 1_000, 200, 200
CALLS, TIMES, FLOOR = 3_000, 3, 0.002
NOBODY, NEWCOMERS = 65534, 40
# Seconds for which the system gives no more, and seconds that new clients may wait afterwards.
LIMITED, BACK = 3.0, 10.0
# Seconds that a client waits for a reply that may never come, and seconds after which the server has
# read all that was sent.
SHORTLY, SETTLED = 0.5, 1.0
# For clients that never read their replies: the value that they ask for, how often they ask, and how
# many bytes of replies the system keeps for each.
BIG, READS, WINDOW = b"v" * 4_000, 1_000, 4_096
PAGE = os.sysconf("SC_PAGE_SIZE")
# The most bytes of a segment on an Ethernet.
ETHERNET = 1_448
# The options of a server, the segments of those who never read (None: those of the loopback), and the
# seconds that 99 of 100 honest calls may take where that is more than 3 times as long as among idle
# connections.
CROWDS = [([], ETHERNET, FLOOR), (["--threads", "2"], ETHERNET, 0), ([], None, FLOOR),
          (["--threads", "2"], None, 0)]
# Bytes that the system may hold in each direction of a connection (docs/use/SERVER.md): twice as many
# as the server asks for, and one segment of the loopback.
HELD = 3 * 65_536
# The state of an open connection in /proc/net/tcp.
OPEN = "01"
# Seconds for which a greedy client reads, the number of puts that it sends at once, and the most bytes
# that it sends once it reads no more.
READING, AT_ONCE, MOST_SENT = 1.0, 256, 64 << 20
# MiB that the crowd may take; by name, how many connections send which part of a request of the most
# bytes, and the MiB that these may take (docs/use/SERVER.md).
CROWD_TAKES = 110
LENGTH = asked.LIMIT.to_bytes(4, "big")
HALVES = {"the length of a request": (1_000, LENGTH, 40),
          "a request of 1 MiB but its last byte": (100, LENGTH + bytes(asked.LIMIT - 1), 110)}


class Crowded(running.Server):
    """A server for many connections, with the options of running.OPTIONS and these. Its user may have
    at most `threads` threads if that is given."""

    def __init__(self, craqd, most=None, threads=None, way=()):
        words = [*running.OPTIONS, *way, *(["--most", str(most)] if most else []), "--connections",
                 str(2**32 - 1)]
        self.file, self.left, self.answered = running.text_file(running.PLAN), 2**32 - 1, {}
        os.chmod(self.file.name, 0o644)
        # The system limits the threads of a user, and not those of root.
        other = {"user": NOBODY, "group": NOBODY, "extra_groups": []} if threads and os.getuid() == 0 else {}
        raised = min(65_536, resource.getrlimit(resource.RLIMIT_NOFILE)[1])
        of, most = (resource.RLIMIT_NPROC, threads) if threads else (resource.RLIMIT_NOFILE, raised)
        limit = running.limited(of, most)
        self.process = subprocess.Popen([craqd, *words, self.file.name, "127.0.0.1:0"],
                                        stdin=subprocess.DEVNULL, stdout=subprocess.PIPE,
                                        stderr=subprocess.PIPE, preexec_fn=limit, **other)
        self.first = self.process.stdout.readline().decode()
        self.port = int(re.fullmatch(r"listening ([1-9][0-9]*)\n", self.first)[1])

    def threads(self):
        return len(os.listdir(f"/proc/{self.process.pid}/task"))

    def files(self):
        return len(os.listdir(f"/proc/{self.process.pid}/fd"))

    def space(self):
        with open(f"/proc/{self.process.pid}/statm", encoding="ascii") as it:
            return int(it.read().split()[0]) * PAGE

    def held(self):
        """Returns the most bytes that the system holds for a connection: of those that its client has
        not taken, and of those that the server has not read."""
        with open("/proc/net/tcp", encoding="ascii") as it:
            rows = [line.split() for line in it]
        held = [row[4].split(":") for row in rows if row[1].endswith(f":{self.port:04X}") and row[3] == OPEN]
        return [max(int(it, 16) for it in way) for way in zip(*held)]

    def connect_from(self, at, window=None, segment=None):
        """Returns a connection from one of some addresses, since an address has few ports."""
        made = socket.socket()
        if window:
            made.setsockopt(socket.SOL_SOCKET, socket.SO_RCVBUF, window)
        if segment:
            made.setsockopt(socket.IPPROTO_TCP, socket.TCP_MAXSEG, segment)
        made.setsockopt(socket.IPPROTO_TCP, socket.TCP_NODELAY, 1)
        made.settimeout(running.PATIENCE)
        made.bind((f"127.0.0.{2 + at % 100}", 0))
        made.connect(("127.0.0.1", self.port))
        return made


class Honest:
    """A client that puts new objects, asks again under the same number what was not answered, and
    knows what was answered."""

    def __init__(self, server, id, patience=running.PATIENCE):
        self.server, self.id, self.patience = server, id, patience
        self.number, self.connection, self.shown = 1, None, 0
        self.written, self.wrong, self.open = {}, [], None

    def request(self, value):
        """Returns the request of a put. A request without a reply is asked again as it was."""
        self.open = value = self.open or value
        return example.update_request(1, self.shown, self.id, self.number,
                                      example.put(0, f"{self.id}-{self.number}", value))

    def tries(self, value):
        """Puts a new object, once; whether that was answered."""
        try:
            if not self.connection:
                self.connection = example.Connection(self.server.address, self.patience)
            self.connection.send(example.one(2, self.request(value)))
            [(shown, told)] = example.replies_of(self.connection.receive())
        except OSError:
            self.drop()
            return False
        if isinstance(told, example.Refused):
            if told.number not in example.PASSING:
                self.wrong.append(told)
            return False
        if told != example.Written(1):
            self.wrong.append(told)
        self.shown = max(self.shown, shown)
        self.written[f"{self.id}-{self.number}"] = self.open
        self.number, self.open = self.number + 1, None
        return True

    def drop(self):
        if self.connection:
            self.connection.close()
        self.connection = None

    def finds(self):
        """Returns the values that it was told are written and that a read does not return."""
        lost = []
        with example.Client(self.server.address, 2) as other:
            for key, value in self.written.items():
                found = other.read(key, node=2)
                if found != example.Read(1, value):
                    lost.append((key, found))
        return lost


def is_answered_at_last(client, value=b"last"):
    """Returns whether the client is answered within a while."""
    until = time.monotonic() + BACK
    while time.monotonic() < until:
        if client.tries(value):
            return True
        time.sleep(0.05)
    return False


def slowest_of_most(client, count):
    """Makes `count` calls, and returns how long 99 of 100 take at most."""
    spent = []
    for _ in range(count):
        began = time.monotonic()
        if not client.tries(b"a"):
            client.wrong.append("not answered")
        spent.append(time.monotonic() - began)
    return sorted(spent)[len(spent) * 99 // 100]


def held(server, count, sends, window=None, segment=None):
    """Returns `count` connections, each after it sent this. They never read; `window`, if given, is
    how many bytes the system receives for each."""
    made = []
    for at in range(count):
        it = server.connect_from(at, window, segment)
        it.settimeout(0.2)
        try:
            it.sendall(sends)
        except OSError:
            pass
        made.append(it)
    return made


def big_reads():
    """Returns the bytes of many reads of a large value."""
    return framed(example.one(1, example.read_request(1, 0, example.STRONG, 0, "big"))) * READS


def leave(server, over):
    """Opens and closes LEAVERS connections a second, until it is over."""
    at = 0
    while not over.wait(1 / LEAVERS):
        server.connect_from(at).close()
        at += 1


def crowd(checks, craqd, way, segment, most):
    """Serves a crowd, and returns what was seen, in words."""
    segments = "an Ethernet" if segment else "the loopback"
    name = f"{' '.join(way) or 'a thread for each connection'}, segments of {segments}"
    server = Crowded(craqd, HALF + MUTE + LEAVERS + 200, way=way)
    over = multiprocessing.Event()
    try:
        client = Honest(server, 1)
        slowest_of_most(client, 500)
        with example.Client(server.address, 2) as other:
            other.put("big", BIG)
        bare = server.memory()
        idle = held(server, HALF + MUTE + LEAVERS, b"")
        alone, with_idle = slowest_of_most(client, CALLS), server.memory()
        for it in idle:
            it.close()
        request = framed(example.one(1, example.update_request(1, 0, 99, 1, example.put(0, "held", b"held"))))
        halves = held(server, HALF, request[:-1])
        with_halves = server.memory()
        mute = held(server, MUTE, big_reads(), WINDOW, segment)
        leaver = multiprocessing.Process(target=leave, args=(server, over), daemon=True)
        leaver.start()
        among = slowest_of_most(client, CALLS)
        with_all, (unread, _) = server.memory(), server.held()
        over.set()
        leaver.join()
        checks.that(among <= max(TIMES * alone, most),
                    f"99 of 100 calls take {among * 1000:.2f} ms among the crowd, {alone * 1000:.2f} among "
                    f"idle connections ({name})")
        checks.that(with_all - bare <= CROWD_TAKES,
                    f"the crowd takes {with_all - bare:.0f} MiB, {CROWD_TAKES} at most ({name})")
        checks.that(unread <= HELD, f"the system holds {unread} bytes of replies for a client that never "
                    f"reads, {HELD} at most ({name})")
        has_gone(checks, name, client, halves + mute)
        return (f"{name}: 99 of 100 calls within {alone * 1000:.2f} ms among {HALF + MUTE + LEAVERS} idle "
                f"connections and {among * 1000:.2f} ms "
                f"among the crowd; {bare:.0f} MiB, {with_idle:.0f} with the idle, {with_halves:.0f} with "
                f"{HALF} half requests, "
                f"{with_all:.0f} with the crowd, for each of which the system held at most {unread} bytes of "
                f"replies")
    finally:
        over.set()
        server.kill()


def has_gone(checks, name, client, crowd):
    """Checks, after the crowd, that the honest client saw nothing wrong, is answered, and finds
    what it wrote."""
    for it in crowd:
        it.close()
    checks.that(is_answered_at_last(client), f"the client is answered once the crowd has gone ({name})")
    checks.same(f"what the honest client was told that is wrong ({name})", client.wrong[:3], [])
    checks.same(f"what the honest client wrote and nobody finds ({name})", client.finds()[:3], [])


def read_until(connection, until):
    """Reads what comes on a connection until then."""
    while (left := until - time.monotonic()) > 0:
        if select.select([connection], [], [], left)[0] and not connection.recv(1 << 20):
            return


def greedy(checks, craqd):
    """Checks that the system holds no more for a client that was served fast than for any other.
    Returns how much, in words."""
    server = Crowded(craqd)
    try:
        put = framed(example.one(1,
                                 example.update_request(1, 0, 99, 1, example.put(0, "big", BIG)))) * AT_ONCE
        made, until, held_then = server.connect_from(0), time.monotonic() + READING, []
        reader = threading.Thread(target=read_until, args=(made, until))
        reader.start()
        while time.monotonic() < until:
            made.sendall(put)
            held_then.append(server.held())
        reader.join()
        made.settimeout(SHORTLY)
        asks, sent = big_reads(), 0
        try:
            while sent < MOST_SENT:
                sent += made.send(asks[sent % len(asks):])
        except TimeoutError:
            pass
        unread, unasked = (max(it) for it in zip(*held_then, server.held()))
        checks.that(max(unread, unasked) <= HELD, f"for a greedy client the system holds {unread} bytes of "
                    f"replies and {unasked} of requests, {HELD} at most")
        checks.that(is_answered_at_last(Honest(server, 1)), "a client is answered beside a greedy one")
        made.close()
        return f"for a greedy client the system held {unread} bytes of replies and {unasked} of requests"
    finally:
        server.kill()


class Few:
    """One client that is there from the start, and many that come."""

    def __init__(self, server):
        self.server, self.all = server, [Honest(server, it, SHORTLY)
                                         for it in (1, *range(100, 100 + NEWCOMERS))]
        self.answered = self.left_open = self.first_left_open = 0
        for _ in range(50):
            self.all[0].tries(b"a")

    def ask_for(self, seconds):
        """Lets all new clients ask in turn until the time is over, and the earlier client after
        each."""
        first, *newcomers = self.all
        until = time.monotonic() + seconds
        while time.monotonic() < until:
            for it in newcomers:
                done = [it.tries(BIG), first.tries(BIG)]
                self.answered, self.left_open = self.answered + sum(done), self.left_open + done.count(False)
                self.first_left_open += not done[1]

    def ends(self, checks, name, is_felt=True, is_first_served=True):
        """Calls were left open where the limit is felt, and none else, nor any of the client that
        was there where it is served all the while; all are answered now, and what was ever answered
        is there. Gives what was seen, in words."""
        checks.that(self.server.runs(), f"the server goes on with {name} at their limit")
        checks.that(not self.first_left_open or not is_first_served, f"with {name} at their limit "
                    f"{self.first_left_open} calls of who was there are left open")
        checks.that((self.left_open > 0) == is_felt and self.answered > 0, f"with {name} at their limit "
                    f"{self.answered} calls are answered, {self.left_open} left open")
        for it in self.all:
            checks.that(is_answered_at_last(it),
                        f"client {it.id} is answered once {name} are no more at their limit")
            it.drop()
        checks.same(f"wrong answers with {name} at their limit",
                    [it.wrong for it in self.all if it.wrong][:3], [])
        checks.same(f"what was answered with {name} at their limit and is lost",
                    [lost for it in self.all for lost in it.finds()][:3], [])
        return f"{name} at their limit: {self.answered} answers, {self.left_open} left open"


def holds_halves(checks, craqd):
    """Connections that sent a part of a request take no more memory than they may; gives how much,
    in words."""
    told = []
    for what, (count, part, most) in HALVES.items():
        server = Crowded(craqd, count + 10)
        try:
            client = Honest(server, 1)
            checks.that(is_answered_at_last(client), "a client is answered before others send half requests")
            before = server.memory()
            some = held(server, count, part)
            checks.that(is_answered_at_last(client),
                        f"a client is answered beside {count} connections that sent {what}")
            time.sleep(SETTLED)
            grown = server.memory() - before
            checks.that(grown <= most,
                        f"{count} connections that sent {what} take {grown:.0f} MiB, {most} at most")
            told.append(f"{count} connections that sent {what} took {grown:.0f} MiB")
            for it in some:
                it.close()
        finally:
            server.kill()
    return ", ".join(told)


def limited(checks, craqd, name, what):
    """Checks a running server to which the system gives no more of this for a while."""
    server = Crowded(craqd)
    try:
        few = Few(server)
        before = resource.prlimit(server.process.pid, what)
        reached = server.files() if what == resource.RLIMIT_NOFILE else server.space()
        resource.prlimit(server.process.pid, what, (reached, before[1]))
        few.ask_for(LIMITED)
        resource.prlimit(server.process.pid, what, before)
        return few.ends(checks, name, is_first_served=what == resource.RLIMIT_NOFILE)
    finally:
        server.kill()


def limited_threads(checks, craqd):
    """Checks a server to which the system gives no more threads while some connections are held.
    Each connection has a thread unless a few threads serve all."""
    server = Crowded(craqd)
    own = server.threads()
    server.kill()
    needs = not running.OPTIONS
    server = Crowded(craqd, threads=own + NEWCOMERS // 2 * needs)
    try:
        few = Few(server)
        some = held(server, NEWCOMERS // 2, b"")
        few.ask_for(LIMITED)
        for it in some:
            it.close()
        for it in few.all:
            it.drop()
        return few.ends(checks, "threads", needs)
    finally:
        server.kill()


def told_at_once(made):
    """Returns the bytes that come on a connection shortly, and whether it then ends."""
    said = b""
    try:
        while more := made.recv(100):
            said += more
    except OSError:
        return said, False
    return said, True


def one_too_many(checks, craqd):
    """Checks that one connection more than the most is closed without a reply, and that another is
    served once one has gone."""
    server = Crowded(craqd, most=8)
    try:
        some = [example.Connection(server.address) for _ in range(8)]
        for it in some:
            it.send(example.one(1, example.read_request(1, 0, example.STRONG, 0, "k")))
            checks.same("a connection of as many as may be", example.replies_of(it.receive())[0][1],
                        example.Read(0, b""))
        with socket.create_connection(("127.0.0.1", server.port), SHORTLY) as more:
            checks.same("one connection too many is closed without a reply", told_at_once(more), (b"", True))
        some.pop().close()
        checks.that(is_answered_at_last(Honest(server, 1)), "a connection is served once another has gone")
        for it in some:
            it.close()
        return "one connection more than 8"
    finally:
        server.kill()


def limits(checks, craqd):
    """Tries half requests, a greedy client, the three limits and one connection too many in one way
    of serving. Returns what was seen, in words."""
    told = [holds_halves(checks, craqd), greedy(checks, craqd),
            limited(checks, craqd, "open files", resource.RLIMIT_NOFILE),
            limited(checks, craqd, "memory", resource.RLIMIT_AS)]
    told.append(limited_threads(checks, craqd) if os.getuid() == 0
                else "the limit of threads is left out: only root can start craqd under another user")
    return ", ".join([*told, one_too_many(checks, craqd)])


def tried(checks, craqd):
    """Tries all limits in each way of serving, and returns what was tried, in words."""
    return "; ".join([*(crowd(checks, craqd, *it) for it in CROWDS),
                      running.in_each_way(checks, lambda: limits(checks, craqd))])
