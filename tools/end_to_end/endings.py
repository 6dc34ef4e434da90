"""Orderly ends of a server under load: a full accept queue, no free descriptors, clients that take no
reply, requests that wait behind a stopped node, a listener that fails."""
import ctypes
import os
import resource
import signal
import socket
import subprocess
import tempfile
import time

from tools import plain_client as example
from tools.end_to_end import running
from tools.end_to_end.control import Controlled
from tools.end_to_end.bad_input import framed
from tools.end_to_end.limits import Limited, is_served, read_of, reply
from tools.end_to_end.signals import top_with

# Seconds that an orderly end may take beyond the clients that are cut after 5 seconds, and what a busy
# machine adds.
END_SECONDS, GRACE_SECONDS, SLACK_SECONDS = 5, 5, 2
FEW_FILES, MANY, QUEUED = 64, 400, 200
PIDFD_OPEN, PIDFD_GETFD = 434, 438


def crowd(port, count):
    """Connections that are begun and not waited for: those beyond the accept queue stay half open."""
    made = [socket.socket() for _ in range(count)]
    for it in made:
        it.setblocking(False)
        it.connect_ex(("127.0.0.1", port))
    return made


def let_go(made):
    for it in made:
        it.close()


def ends_in_order(checks, server, what, wanted, limit=END_SECONDS):
    """Ends the server's standard input, and looks at how long it then takes and what it prints."""
    began = time.time()
    server.finish(checks, what, wanted)
    took = time.time() - began
    checks.that(took < limit + SLACK_SECONDS, f"{what}: it ends within {limit} s, and took {took:.1f} s")


def flood(made):
    """Sends requests until the server takes no more, and takes no reply."""
    made.setblocking(False)
    ends = time.time() + running.PATIENCE
    blocked = 0
    while blocked < 3 and time.time() < ends:
        try:
            made.send(read_of(1, 0) * 1_000)
            blocked = 0
        except BlockingIOError:
            blocked += 1
            time.sleep(0.02)


def without_descriptors(checks, craqd):
    """No descriptor is left and the accept queue is full as the server is to end."""
    with Limited(craqd, "--journal", files=FEW_FILES) as server:
        first = server.connect()
        first.sendall(read_of(1, 0))
        checks.same("a read before the crowd", reply(first)[1:2], b"\2")
        made = crowd(server.port, MANY)
        time.sleep(0.5)
        ends_in_order(
            checks,
            server,
            f"a server of {FEW_FILES} descriptors and {MANY} clients",
            "audit merged 1\naudit merged 0\n",
        )
        let_go([first, *made])


def without_descriptors_to_the_end(checks, craqd):
    """A server without descriptors ends in order if its clients take no reply: none comes free before
    they are cut."""
    with Limited(craqd, files=FEW_FILES) as server:
        served = [server.connect() for _ in range(FEW_FILES)]
        for it in served:
            flood(it)
        made = crowd(server.port, MANY)
        time.sleep(0.5)
        ends_in_order(
            checks,
            server,
            f"a server of {FEW_FILES} descriptors, clients that never read and {MANY} more",
            "",
            GRACE_SECONDS + END_SECONDS,
        )
        let_go([*served, *made])


def after_the_last(checks, craqd):
    """The last connection that is to be taken stays, and more wait in the accept queue."""
    with Limited(craqd, "--journal", "--connections", "1") as server:
        first = server.connect()
        checks.that(is_served(first), "the last connection is served")
        made = crowd(server.port, QUEUED)
        time.sleep(0.5)
        ends_in_order(
            checks,
            server,
            f"a server with its last connection and {QUEUED} clients behind it",
            "audit merged 0\naudit merged 0\n",
        )
        let_go([first, *made])


def never_reads(checks, craqd):
    """A client that takes no reply is cut, even if others wait in the accept queue."""
    with Limited(craqd, "--connections", "1") as server:
        first = server.connect()
        flood(first)
        made = crowd(server.port, QUEUED)
        ends_in_order(
            checks, server, "a server of a client that never reads", "", GRACE_SECONDS + END_SECONDS
        )
        let_go([first, *made])


def behind_a_stopped_node(checks, craqd):
    """Updates wait behind a stopped tail as the server is to end: of a client that waits, and of one
    that is gone."""
    with Controlled(craqd, running.PLAN, "--journal") as server:
        checks.same("the tail stops", server.ask("stop a/3"), ["a/3 stopped"])
        made = [socket.create_connection(("127.0.0.1", server.port), running.PATIENCE) for _ in range(2)]
        for client, it in enumerate(made, 1):
            it.sendall(
                framed(example.one(1, example.update_request(1, 0, client, 1, example.put(0, b"k", b"v"))))
            )
        time.sleep(0.5)
        made[1].close()
        began = time.time()
        status, out, _ = server.finish()
        took = time.time() - began
        checks.same(
            "a server with updates behind a stopped tail",
            (status, out),
            (0, "audit merged 0\naudit merged 0\n"),
        )
        limit = GRACE_SECONDS + END_SECONDS + SLACK_SECONDS
        checks.that(
            took < limit,
            f"a server with updates behind a stopped tail ends within {limit} s, and took {took:.1f} s",
        )
        told = example.replies_of(reply(made[0]))
        checks.same("the update that waited is refused", [it.number for _, it in told], [example.STOPPED])
        made[0].close()


def signalled(checks, craqd):
    """./serve at SIGTERM, with no descriptor left and a full accept queue."""
    with tempfile.TemporaryDirectory(prefix="end-to-end-") as room, running.text_file(running.PLAN) as plan:
        top_with(craqd, room)
        words = [f"{room}/serve", "--journal", *running.OPTIONS, plan.name, "127.0.0.1:0"]
        process = subprocess.Popen(
            words,
            stdin=subprocess.DEVNULL,
            stdout=subprocess.PIPE,
            stderr=subprocess.PIPE,
            text=True,
            start_new_session=True,
            preexec_fn=running.limited(resource.RLIMIT_NOFILE, FEW_FILES),
        )
        try:
            port = int(process.stdout.readline().removeprefix("listening "))
            made = crowd(port, MANY)
            time.sleep(0.5)
            began = time.time()
            process.send_signal(signal.SIGTERM)
            out, err = process.communicate(timeout=running.PATIENCE)
            took = time.time() - began
            checks.same(
                "./serve at SIGTERM with a crowd",
                (process.returncode, out.splitlines()[-2:]),
                (0, ["audit merged 0"] * 2),
            )
            checks.that(
                took < END_SECONDS + SLACK_SECONDS,
                f"./serve at SIGTERM with a crowd took {took:.1f} s: {err}",
            )
            let_go(made)
        finally:
            if process.poll() is None:
                os.killpg(process.pid, signal.SIGKILL)
                process.wait()


def listener_of(process, port):
    """Returns a handle of the listening socket of another process, of which this one is the parent,
    or None if the system gives none."""
    call = ctypes.CDLL(None, use_errno=True).syscall
    pidfd = call(PIDFD_OPEN, process.pid, 0)
    if pidfd < 0:
        return None
    try:
        for name in os.listdir(f"/proc/{process.pid}/fd"):
            if not os.readlink(f"/proc/{process.pid}/fd/{name}").startswith("socket:"):
                continue
            handle = call(PIDFD_GETFD, pidfd, int(name), 0)
            if handle < 0:
                return None
            found = socket.socket(fileno=handle)
            if found.getsockopt(socket.SOL_SOCKET, socket.SO_ACCEPTCONN) and found.getsockname()[1] == port:
                return found
            found.close()
    finally:
        os.close(pidfd)
    return None


def listener_fails(checks, craqd):
    """A server whose listener fails for a lasting reason answers and audits the requests so far,
    and prints the fault."""
    with Limited(craqd, "--journal") as server:
        first = server.connect()
        first.sendall(read_of(1, 0))
        checks.same("a read before the listener fails", reply(first)[1:2], b"\2")
        listener = listener_of(server.process, server.port)
        if listener is None:
            print(
                "end to end: this system gives no handle of another process's socket: "
                "a listener that fails is not tried"
            )
            return
        began = time.time()
        listener.shutdown(socket.SHUT_RDWR)
        # Its standard input stays open until it has ended.
        server.process.wait(running.PATIENCE)
        took = time.time() - began
        out, err = server.process.communicate()
        checks.same(
            "a listener that fails",
            (server.process.returncode, out.decode(), err.decode().splitlines()[1:]),
            (4, "audit merged 1\naudit merged 0\n", ["cannot listen"]),
        )
        checks.that(
            took < END_SECONDS + SLACK_SECONDS, f"a listener that fails: the server ended after {took:.1f} s"
        )
        let_go([first, listener])


def lacking(checks, craqd):
    """A listener that has no descriptor for a while is asked again, and the server goes on."""
    with Limited(craqd, files=FEW_FILES) as server:
        made = crowd(server.port, MANY)
        time.sleep(0.5)
        let_go(made)
        late = server.connect()
        checks.that(is_served(late), "a connection is served after descriptors were lacking")
        late.close()
        ends_in_order(checks, server, "a server that lacked descriptors", "")


def tried(checks, craqd):
    for part in (
        without_descriptors,
        without_descriptors_to_the_end,
        after_the_last,
        never_reads,
        behind_a_stopped_node,
        signalled,
        listener_fails,
        lacking,
    ):
        checks.part(f"endings: {part.__name__.replace('_', ' ')}", part, craqd)
