"""Tries a server at its limits: too many connections, idle ones, a pass that leaps, the end of its
standard input."""
import os
import re
import resource
import signal
import socket
import subprocess
import tempfile
import time

from tools.end_to_end import running, signals
from tools.end_to_end.bad_input import framed, rest, taken
from tools.hostile.refused import Library

LEAP = 1_048_576
MANY = 1_500
# Numbers of the asks for memory that are refused, each in a server of its own.
REFUSED = range(1, 17)
# A plan of the largest size, and the most processors that its store may take while nobody asks it.
LARGE = "".join(f'[[chain]]\nname = "{it}"\nnodes = [1, 2, 3, 4, 5, 6, 7, 8]\n' for it in range(64))
MOST_IDLE = 0.3


class Limited:
    """A craqd with these options, which ends once its standard input does."""

    def __init__(self, craqd, *options, errors=subprocess.PIPE, files=None, env=(), plan=running.PLAN):
        self.plan, self.file, self.options = plan, running.text_file(plan), [*running.OPTIONS, *options]
        words = [craqd, "--until-input-ends", *self.options, self.file.name, "127.0.0.1:0"]
        self.process = subprocess.Popen(
            words,
            stdin=subprocess.PIPE,
            stdout=subprocess.PIPE,
            stderr=errors,
            env={**os.environ, **dict(env)},
            preexec_fn=running.limited(resource.RLIMIT_NOFILE, files),
        )
        found = re.fullmatch(rb"listening ([1-9][0-9]*)\n", self.process.stdout.readline())
        self.port = int(found[1]) if found else 0

    def __enter__(self):
        return self

    def __exit__(self, *_):
        if self.process.poll() is None:
            self.process.kill()
            self.process.wait()
        self.file.close()

    def connect(self):
        return socket.create_connection(("127.0.0.1", self.port), running.PATIENCE)

    def finish(self, checks, what, wanted, log=""):
        """Ends its standard input, and looks at what it then tells; on standard error also this log."""
        try:
            out, err = self.process.communicate(timeout=running.PATIENCE)
            found = (self.process.returncode, out.decode())
            served = running.served_line(
                self.file, self.port, *running.way(self.options), plan=self.plan
            ) + re.escape(log)
            checks.that(
                err is None or re.fullmatch(served, err.decode()),
                f"{what}: on standard error {err!r} and not {served!r}",
            )
        except subprocess.TimeoutExpired:
            found = "no end"
        checks.same(what, found, (0, wanted))


def read_of(node, shown):
    """Returns a strong read of k, with this pass."""
    return framed(
        bytes.fromhex("0102")
        + node.to_bytes(4, "big")
        + shown.to_bytes(8, "big")
        + bytes.fromhex("010000016b")
    )


def reply(made):
    """Returns the payload of the next reply."""
    return taken(made, int.from_bytes(taken(made, 4), "big"))


def is_served(made):
    """Returns whether a connection is answered."""
    made.sendall(framed(bytes.fromhex("0103")))
    return reply(made)[:2] == bytes.fromhex("0104")


def most(checks, craqd):
    """One connection more than there may be is closed without a reply; once another has ended there is
    a place."""
    with Limited(craqd, "--most", "2") as server:
        some = [server.connect() for _ in range(2)]
        checks.that(all(is_served(made) for made in some), "as many connections as there may be are served")
        for _ in range(3):
            with server.connect() as made:
                checks.same("one connection more", rest_or_none(made), b"")
        some[0].close()
        ends = time.time() + running.PATIENCE
        again = server.connect()
        while rest_or_none(again) == b"" and time.time() < ends:
            again = server.connect()
        checks.that(is_served(again), "there is a place once a connection has ended")
        checks.that(is_served(some[1]), "another connection is served all the while")
        server.finish(checks, "a server with few places", "")


def rest_or_none(made):
    """Returns all bytes of a connection that ends at once, or None if it stays open."""
    made.settimeout(0.3)
    try:
        found = rest(made)
    except OSError:
        found = None
    made.settimeout(running.PATIENCE)
    return found


def idle(checks, craqd):
    """A connection on which nothing comes is ended; one that asks now and then is not."""
    with Limited(craqd, "--idle", "1") as server:
        silent, lively = server.connect(), server.connect()
        began = time.time()
        while time.time() < began + 1.5:
            checks.that(is_served(lively), "a connection that asks is served")
            time.sleep(0.3)
        checks.same("a connection on which nothing comes", rest(silent), b"")
        server.finish(checks, "a server that waits a second", "")


def used(process):
    """Returns the seconds of processor time that a process used."""
    with open(f"/proc/{process.pid}/stat", encoding="ascii", errors="replace") as it:
        return sum(map(int, it.read().rpartition(")")[2].split()[11:13])) / os.sysconf("SC_CLK_TCK")


def unasked(checks, craqd):
    """A store of the largest size takes little processor time while nobody asks it. How little on a
    quiet machine is measured (`benchmarks/server/idle`), not tested here."""
    with Limited(craqd, plan=LARGE) as server:
        time.sleep(2)
        before, began = used(server.process), time.time()
        time.sleep(2)
        share = (used(server.process) - before) / (time.time() - began)
        checks.that(
            share <= MOST_IDLE,
            f"64 chains of 8 nodes that nobody asks take {share:.2f} processors, and may take {MOST_IDLE}",
        )
        server.finish(checks, "a server of 64 chains", "")


def many(checks, craqd):
    """By default as many connections are served as descriptors allow."""
    with Limited(craqd, files=MANY + 100) as server:
        some = [server.connect() for _ in range(MANY)]
        checks.that(all(is_served(made) for made in some), f"{MANY} connections at once are served")
        for made in some:
            made.close()
        server.finish(checks, f"a server of {MANY} connections at once", "")


def memory(checks, craqd):
    """A connection for which there is no memory is closed at once, by the thread that accepts it or by
    its event loop; then, and only then, the status is 3."""
    options, found = [] if running.OPTIONS else ["--threads", "1"], []
    with tempfile.TemporaryDirectory(prefix="memory-") as folder:
        library = Library(folder)
        for at in REFUSED:
            refusing = library.refusing(memory=at, after="listening")
            with Limited(craqd, *options, env=refusing) as server, server.connect() as made:
                is_closed = rest_or_none(made) == b""
                server.process.communicate(timeout=running.PATIENCE)
                found.append((is_closed, server.process.returncode))
    checks.same(f"connections without memory, and the status: {found}", {*found}, {(True, 3), (False, 0)})


def leaps(checks, craqd):
    """With --most-leap a pass that leaps too far is refused, asks no node, and disables none."""
    with Limited(craqd, "--journal", "--most-leap", str(LEAP)) as server, server.connect() as made:
        for shown, kind in (
            (2**64 - 1, 3),
            (2**64 - 2, 3),
            (LEAP + 1, 3),
            (LEAP, 2),
            (2 * LEAP, 2),
            (2**40, 3),
            (0, 2),
        ):
            made.sendall(read_of(3, shown))
            found = reply(made)
            checks.same(
                f"a read with pass {shown}", (found[1], found[2] == 13 if kind == 3 else True), (kind, True)
            )
        server.finish(checks, "a server after such passes", "audit merged 3\naudit merged 0\n")


def invented(checks, craqd):
    """./serve keeps out an invented pass, which would use up its chain's numbers."""
    with tempfile.TemporaryDirectory(prefix="end-to-end-") as room, running.text_file(running.PLAN) as plan:
        signals.top_with(craqd, room)
        process = subprocess.Popen(
            [f"{room}/serve", *running.OPTIONS, plan.name, "127.0.0.1:0"],
            stdin=subprocess.DEVNULL,
            stdout=subprocess.PIPE,
            stderr=subprocess.PIPE,
            text=True,
            start_new_session=True,
        )
        try:
            port = int(process.stdout.readline().removeprefix("listening "))
            with socket.create_connection(("127.0.0.1", port), running.PATIENCE) as made:
                for shown, kind in (2**64 - 2, 3), (2**32, 3), (0, 2), (1_234_567_890, 2):
                    made.sendall(read_of(3, shown))
                    found = reply(made)
                    checks.same(
                        f"./serve: a read with pass {shown}",
                        (found[1], found[2] == 13 if kind == 3 else True),
                        (kind, True),
                    )
            process.send_signal(signal.SIGTERM)
            process.communicate(timeout=running.PATIENCE)
            checks.same("./serve after such passes", process.returncode, 0)
        finally:
            signals.ends(process)


def kept(checks, craqd):
    """A pass that a client kept from an earlier server is taken, and the replies go on from it; one at
    the end of its numbers is refused and disables nothing."""
    with Limited(craqd, "--journal") as server, server.connect() as made:
        made.sendall(read_of(3, 2**64 - 1))
        checks.same("a read with the greatest pass", reply(made)[1:3], bytes([3, 13]))
        for shown in 2**40, 0:
            made.sendall(read_of(3, shown))
            found = reply(made)
            checks.that(
                found[1] == 2 and int.from_bytes(found[2:10], "big") > 2**40,
                f"a read with pass {shown} after a restart: {found}",
            )
        server.finish(checks, "a server that was shown kept passes", "audit merged 2\naudit merged 0\n")


def input_ends(checks, craqd):
    """A server whose input ends answers and audits the requests before the end, also if a client keeps its
    connection open."""
    with Limited(craqd, "--journal") as server:
        some = [server.connect() for _ in range(5)]
        some[0].sendall(read_of(1, 0) * 100)
        checks.that(all(reply(some[0])[1:2] == b"\2" for _ in range(100)), "reads are answered")
        some[1].sendall(read_of(1, 0)[:10])
        began = time.time()
        server.finish(checks, "a server whose input ends", "audit merged 100\naudit merged 0\n")
        checks.that(time.time() - began < 10, "it ends at once")
        for made in some[2:]:
            checks.same("a connection that is open at the end", rest(made), b"")


def journals(checks, craqd):
    """A server with journals and without an end serves, and says that no audit will be printed."""
    with running.text_file(running.PLAN) as file:
        words = [craqd, "--journal", *running.OPTIONS, file.name, "127.0.0.1:0"]
        process = subprocess.Popen(
            words, stdin=subprocess.DEVNULL, stdout=subprocess.PIPE, stderr=subprocess.PIPE
        )
        try:
            port = int(process.stdout.readline().removeprefix(b"listening "))
            with socket.create_connection(("127.0.0.1", port), running.PATIENCE) as made:
                checks.that(is_served(made), "a server with journals and without an end serves")
            checks.that(process.poll() is None, "a server with journals and without an end goes on")
            process.terminate()
            out, err = process.communicate(timeout=running.PATIENCE)
            checks.same("--journal without an end", (process.returncode, out), (-15, b""))
            checks.that(
                b"journals, of which no audit will be printed" in err,
                f"--journal without an end says so: {err}",
            )
        finally:
            if process.poll() is None:
                process.kill()
                process.wait()


def port_of(made):
    """Returns the port that a connection comes from."""
    return made.getsockname()[1]


def logged(checks, craqd):
    """The log reports connections and refusals, in order."""
    with Limited(craqd, "--log", "--most", "1", "--most-leap", str(LEAP)) as server:
        first = server.connect()
        checks.that(is_served(first), "a connection that is told of is served")
        first.sendall(read_of(9, 0))
        checks.same("a read at a node that is not there", reply(first)[1:3], bytes([3, 23]))
        first.sendall(read_of(3, 2**40))
        checks.same("a read with a pass that leaps", reply(first)[1:3], bytes([3, 13]))
        more = [server.connect() for _ in range(2)]
        for made in more:
            checks.same("one connection more, with a log", rest_or_none(made), b"")
        log = (
            f"connection 0 from 127.0.0.1:{port_of(first)}\n"
            "connection 0: refused 23, there is no such node here\n"
            "connection 0: refused 13, a counter is at its greatest value, or the pass is too large\n"
            f"connection from 127.0.0.1:{port_of(more[0])} turned away, 1 so far\n"
            f"connection from 127.0.0.1:{port_of(more[1])} turned away, 2 so far\n"
            "connection 0 ended\n"
        )
        first.shutdown(socket.SHUT_WR)
        checks.same("a connection at its end", rest(first), b"")
        server.finish(checks, "a server with --log", "", log)


def log(checks, craqd):
    """The log; one that nothing takes costs no reply."""
    logged(checks, craqd)
    with open("/dev/full", "wb") as full, Limited(
        craqd, "--log", errors=full
    ) as server, server.connect() as made:
        made.sendall(read_of(9, 0))
        checks.same("a refusal that is told to nobody", reply(made)[1:3], bytes([3, 23]))
        checks.that(is_served(made), "a connection is served whose log is lost")
        server.finish(checks, "a server whose log is lost", "")


def tried(checks, craqd):
    for part in most, many, memory, idle, unasked, leaps, invented, kept, input_ends, journals, log:
        checks.part(f"limits: {part.__name__.replace('_', ' ')}", part, craqd)
