"""Peers that vanish, that send urgent data, or that ask without end: what the server does for the others."""
import multiprocessing
import os
import select
import signal
import socket
import time

from tools.end_to_end import running
from tools.end_to_end.bad_input import framed, taken
from tools.end_to_end.limits import Limited, is_served, read_of, reply

PROBE_SECONDS = 30
# Number of clients that pipeline; a read, and the bytes of its reply; the bytes of replies that each
# waits for at most; and the seconds within which half of the reads of another client are answered.
READERS, READ, REPLY_BYTES, MOST_OWED, LIMIT = 50, read_of(1, 0), 24, 36_000, 0.25
STATUS = framed(bytes.fromhex("0103"))
# The timer of a socket in /proc/net/tcp that is of keepalive, and how many of its units make a second.
KEEPALIVE, UNITS = "02", os.sysconf("SC_CLK_TCK")


def timer_of(server_port, client_port):
    """Returns the kind of a connection's timer at the server's end, and the seconds until it is
    over, or None if there is no such connection."""
    with open("/proc/net/tcp", encoding="ascii") as it:
        for line in it:
            words = line.split()
            if words[1:3] == [f"0100007F:{server_port:04X}", f"0100007F:{client_port:04X}"]:
                kind, left = words[5].split(":")
                return kind, int(left, 16) / UNITS
    return None


def probed(checks, craqd):
    """The system probes each silent peer after 30 seconds."""
    with Limited(craqd) as server, server.connect() as made:
        checks.that(is_served(made), "a connection that will be probed is served")
        time.sleep(0.5)
        kind, left = timer_of(server.port, made.getsockname()[1])
        checks.same("the timer of a silent connection", kind, KEEPALIVE)
        checks.that(
            PROBE_SECONDS - 5 < left <= PROBE_SECONDS, f"a silent connection is probed after {left:.1f} s"
        )
        server.process.stdin.close()
        server.process.wait(running.PATIENCE)


def held(server, made, *sent):
    """Sends these bytes and urgent bytes, each a pair of the bytes and their flags, before the server
    runs again."""
    server.process.send_signal(signal.SIGSTOP)
    try:
        for data, flags in sent:
            made.send(data, flags)
        time.sleep(0.02)
    finally:
        server.process.send_signal(signal.SIGCONT)


def urgent(checks, craqd):
    """Bytes behind an urgent byte are read at once: the urgent byte itself is no part of the requests."""
    with Limited(craqd) as server, server.connect() as made:
        made.setsockopt(socket.IPPROTO_TCP, socket.TCP_NODELAY, 1)
        checks.that(is_served(made), "a connection is served before urgent data")
        made.settimeout(0.5)
        for at in range(1, len(STATUS)):
            held(server, made, (STATUS[:at], 0), (b"!", socket.MSG_OOB), (STATUS[at:], 0))
            try:
                found = reply(made)[:2]
            except TimeoutError:
                found = "nothing in 0.5 s"
            checks.same(
                f"a request with an urgent byte after {at} of its bytes", found, bytes.fromhex("0104")
            )
        held(server, made, (b"!", socket.MSG_OOB), (STATUS * 3, 0), (b"!", socket.MSG_OOB), (STATUS, 0))
        try:
            found = [reply(made)[:2] for _ in range(4)]
        except TimeoutError:
            found = "less than four replies in 0.5 s"
        checks.same("requests between urgent bytes", found, [bytes.fromhex("0104")] * 4)
        made.close()
        server.finish(checks, "a server after urgent data", "")


def pipelining(port, stop):
    """Opens READERS connections that keep the server busy with strong reads, until they are
    stopped."""
    made = [socket.create_connection(("127.0.0.1", port), running.PATIENCE) for _ in range(READERS)]
    waiting = select.epoll()
    # The bytes of replies that each has still to get.
    owed = {it.fileno(): [it, 0] for it in made}
    for it in made:
        it.setblocking(False)
        waiting.register(it.fileno(), select.EPOLLIN | select.EPOLLOUT | select.EPOLLET)
    while not stop.is_set():
        for number, _ in waiting.poll(0.1):
            it = owed[number]
            try:
                while True:
                    it[1] -= len(it[0].recv(1 << 18))
            except BlockingIOError:
                pass
            try:
                while it[1] < MOST_OWED:
                    it[1] += it[0].send(READ * 200) // len(READ) * REPLY_BYTES
            except BlockingIOError:
                pass


def latencies(made, seconds):
    """Returns the seconds that one read after another takes, in order."""
    found, ends = [], time.time() + seconds
    while time.time() < ends:
        began = time.perf_counter()
        made.sendall(READ)
        taken(made, REPLY_BYTES)
        found.append(time.perf_counter() - began)
    return sorted(found)


def shared(checks, craqd):
    """A client with one request at a time is served beside clients that pipeline: half of its reads
    take less than LIMIT. How little it waits on a quiet machine is measured, not tested here."""
    with Limited(craqd) as server, server.connect() as made:
        made.setsockopt(socket.IPPROTO_TCP, socket.TCP_NODELAY, 1)
        stop = multiprocessing.Event()
        others = multiprocessing.Process(target=pipelining, args=(server.port, stop))
        others.start()
        try:
            time.sleep(0.5)
            beside = latencies(made, 2)
        finally:
            stop.set()
            others.join()
        half = beside[len(beside) // 2]
        checks.that(
            half <= LIMIT,
            f"beside {READERS} clients that pipeline half of the reads take "
            f"{half * 1e6:.0f} us, and may take {LIMIT * 1e6:.0f}",
        )
        made.close()
        server.finish(checks, "a server after clients that pipeline", "")


def tried(checks, craqd):
    for part in probed, urgent, shared:
        checks.part(f"peers: {part.__name__}", part, craqd)
