"""Servers that do not answer, or not to the end: each verb, command and tool ends in time all the same.
Texts are written from docs/use/CRAQ.md."""
import concurrent.futures
import os
import re
import socket
import subprocess
import sys
import tempfile
import threading
import time

from tools import repository
from tools.end_to_end import control, running

JILSDAU = os.path.join(repository.TOP, "clients/python/jilsdau")
# A request ends 20 seconds after it began, and one that is tried once after 10 or 20. So from its first
# connection on a program takes LEAST to MOST seconds, also on a busy machine. One that runs for WAITS
# seconds has no end.
LEAST, MOST, WAITS = 8, 30, 60
# The seconds from one byte of a slow server to the next.
SLOWNESS = 0.5
UPDATE, READ, STATUS = 1, 2, 3


def frame(payload):
    return len(payload).to_bytes(4, "big") + payload


TOLD = frame(b"\x01\x04" + len(running.STATUS).to_bytes(4, "big") + running.STATUS.encode())
WRITTEN = frame(b"\x01\x01" + bytes(8) + b"\x01" + bytes(7) + b"\x01")
FOUND = frame(b"\x01\x02" + bytes(15) + b"\x01" + b"\x00\x64" + b"v" * 100)


def silent(_made, _kind):
    """Says nothing."""


def told(made, kind):
    """Tells the status, and answers nothing else."""
    if kind == STATUS:
        made.sendall(TOLD)


def half(made, kind):
    """Tells the status, and sends the first half of any other reply."""
    reply = {UPDATE: WRITTEN, READ: FOUND}.get(kind, TOLD * 2)
    made.sendall(reply[: len(reply) // 2])


def slow(made, kind):
    """Tells the status, and sends any other reply byte by byte."""
    if kind == STATUS:
        made.sendall(TOLD)
        return
    for byte in WRITTEN[:4] + bytes(200) if kind == UPDATE else FOUND:
        made.sendall(bytes([byte]))
        time.sleep(SLOWNESS)


def full(made, _kind):
    """Closes the connection, as a server does that has as many as it may have."""
    made.shutdown(socket.SHUT_RDWR)


class Played:
    """A server that takes requests and answers as `answer` does: its address, the time of its first
    connection, and the updates that came."""

    def __init__(self, answer):
        self.answer, self.began, self.tries, self.updates = answer, None, 0, []
        self.listener = socket.create_server(("127.0.0.1", 0))
        self.address = f"127.0.0.1:{self.listener.getsockname()[1]}"
        threading.Thread(target=self.accept, daemon=True).start()

    def accept(self):
        while True:
            try:
                made, _ = self.listener.accept()
            except OSError:
                return
            self.began = self.began or time.monotonic()
            threading.Thread(target=self.serve, args=(made,), daemon=True).start()

    def serve(self, made):
        with made:
            try:
                while payload := self.request(made):
                    self.tries += 1
                    if payload[1] == UPDATE:
                        self.updates.append(payload[14:30])
                    self.answer(made, payload[1])
            except OSError:
                pass

    def request(self, made):
        """Returns the payload of the next frame. Where no frame comes it waits for the end of the
        connection."""
        size = int.from_bytes(made.recv(4, socket.MSG_WAITALL), "big")
        if size < 10_000:
            return made.recv(size, socket.MSG_WAITALL)
        while made.recv(4096):
            pass
        return b""

    def close(self):
        self.listener.close()


LATE = "craq: no reply came from {} in time\n"
FULL = "connection\ncraq: the connection broke; a server that is full (--most) closes each connection\n"
# Of craq and of the command in Python: the words, what is entered, the server's answers, the status,
# the beginning of standard error, and whether that says that the update may have been done.
ROWS = [
    ("set k v", "", silent, 4, LATE, False),
    ("get k", "", silent, 4, LATE, False),
    ("members", "", silent, 4, LATE, False),
    ("health", "", silent, 4, LATE, False),
    ("--chain a add k", "", silent, 4, LATE, False),
    ("set k v", "", told, 4, LATE, True),
    ("get k", "", told, 4, LATE, False),
    ("health", "", told, 4, LATE, False),
    ("--node 1 set k v", "", told, 4, LATE, True),
    ("set k v", "", half, 4, LATE, True),
    ("get k", "", half, 4, LATE, False),
    ("cas k 1 v", "", slow, 4, LATE, True),
    ("get k", "", slow, 4, LATE, False),
    ("--node 1 put 1 1 k v", "", told, 4, "connection\n", False),
    ("--node 1 read strong k", "", slow, 4, "connection\n", False),
    ("--node 1 shell", "read strong k\n", half, 0, "error: connection\n", False),
    ("--node 1 shell", "set k v\n", told, 0, LATE, True),
    ("shell", "", silent, 4, "connection\n", False),
    ("watch", "", silent, 4, "connection\n", False),
    ("watch", "", full, 4, FULL, False),
    ("watch --metrics {}", "", silent, 4, "connection\n", False),
    ("--node 1 bench 1 1 50", "", told, 4, "connection\n", False),
]
PYTHON = [
    ("set k v", "", silent, 4, "jilsdau: the server did not answer in time\n", False),
    ("get k", "", silent, 4, "jilsdau: the server did not answer in time\n", False),
    ("set k v", "", told, 4, "jilsdau: no reply came in time\n", True),
    ("set k v", "", half, 4, "jilsdau: no reply came in time\n", True),
    ("get k", "", slow, 4, "jilsdau: the server did not answer in time\n", False),
    ("health", "", silent, 4, "jilsdau: the server did not answer in time\n", False),
    ("health", "", told, 4, "jilsdau: the server did not answer in time\n", False),
]


class Run:
    """A program that ran: its status, its output, and the times at which it was started and ended."""

    def __init__(self, words, env, entered=""):
        self.began = time.monotonic()
        try:
            ran = subprocess.run(
                words, input=entered.encode(), capture_output=True, env=env, timeout=WAITS, check=False
            )
            self.status, self.out, self.err = ran.returncode, ran.stdout.decode(), ran.stderr.decode()
        except subprocess.TimeoutExpired:
            self.status, self.out, self.err = "no end", "", ""
        self.ended = time.monotonic()


def is_tried_once(words):
    """Returns whether a program asks once: a named node, a command or a tool."""
    return any(it in words for it in ("--node", "watch"))


def check_time(checks, what, began, ran):
    seconds = ran.ended - (began or 0)
    checks.that(LEAST <= seconds <= MOST, f"{what} takes {seconds:.1f} s, wanted {LEAST} to {MOST}")


def judge(checks, words, server, ran, wanted):
    """Checks how a program ended at a server that does not answer."""
    status, err, is_open = wanted
    what = f"{' '.join(words)} at a server that is {server.answer.__name__}"
    checks.that(
        ran.status == status and ran.err.startswith(err),
        f"{what}: {ran.status} {ran.err!r}, wanted {status} {err!r}",
    )
    checks.same(f"{what}: it may have been done", "may have been done" in ran.err, is_open)
    check_time(checks, what, server.began, ran)
    checks.that(
        len(set(server.updates)) <= 1 or "health" in words, f"{what}: one update, and not {server.updates}"
    )
    if words == ["health"] and server.answer is told:
        checks.same(
            f"{what}: its members", ran.out, "".join(f"node {it} no reply within 2 s\n" for it in (1, 2, 3))
        )
    if not is_tried_once(words) and "--metrics" not in words:
        checks.that(server.tries >= 2, f"{what} is tried again: {server.tries}")
    server.close()


def stopped(checks, craqd, craq, home):
    """A member that stopped and is not removed: an update ends in time, and is done once when it is
    asked again."""
    env = {**os.environ, "HOME": home, "PATH": os.path.dirname(craq) + ":" + os.environ["PATH"]}
    with control.Controlled(craqd, running.PLAN) as server:
        address = f"127.0.0.1:{server.port}"
        checks.same("stop", server.ask("stop a/3"), ["a/3 stopped"])
        lines = [
            [craq, "--connect", address, "set", "one", "v"],
            [sys.executable, JILSDAU, "--connect", address, "set", "two", "v"],
        ]
        with concurrent.futures.ThreadPoolExecutor() as pool:
            found = list(pool.map(lambda words: Run(words, env), lines))
        text = "node 1 N ms\nnode 2 N ms\nnode 3 stopped\nupdate not tried\n"
        told = '{"update_seconds":null,"read_seconds":{"1":N,"2":N},"failed":{"3":"stopped"},"pass":N}\n'
        for program in [craq], [sys.executable, JILSDAU]:
            for options, out in ([], text), (["--json"], told):
                ran = Run([*program, "--connect", address, "health", *options], env)
                seen = re.sub(
                    r"[0-9]+\.[0-9]+(e-[0-9]+)?|(?<=pass\":)[0-9]+", "N", re.sub("([:,]) ", r"\1", ran.out)
                )
                checks.same(
                    f"health {options} at a stopped member",
                    (ran.status, seen, ran.err.partition(": ")[2]),
                    (3, out, "remove the stopped node a/3: updates wait until then\n"),
                )
                checks.that(
                    ran.ended - ran.began < LEAST,
                    f"health at a stopped member takes {ran.ended - ran.began:.1f} s",
                )
        checks.same("remove", server.ask("remove a/3"), ["a/3 removed"])
        check_time(checks, "an update at a stopped member", found[0].began, found[0])
        for words, ran in zip(lines, found):
            what = f"{words[-3:]} at a stopped member"
            again = re.search("This asks it again, and it is done once:\n  ((?:craq|python3) .*)\n", ran.err)
            checks.that(ran.status == 4 and again, f"{what}: {ran.status} {ran.err!r}")
            line = again[1] if again else "false"
            asked = subprocess.run(line, shell=True, capture_output=True, env=env, timeout=WAITS, check=False)
            checks.same(
                f"{what}, asked again",
                (asked.returncode, asked.stdout, asked.stderr),
                (0, b"written 1\n", b""),
            )


def lost(checks, craqd, craq, home):
    """A chain without a ready member: health tells that it is lost, and not that a node is to be removed."""
    env = {**os.environ, "HOME": home}
    with control.Controlled(craqd, running.PLAN) as server:
        for line in "stop b/4", "stop b/5 --force":
            server.ask(line)
        for program in [craq], [sys.executable, JILSDAU]:
            ran = Run([*program, "--connect", f"127.0.0.1:{server.port}", "health", "--chain", "b"], env)
            checks.same(
                "health of a lost chain",
                (ran.status, ran.out, ran.err.partition(": ")[2]),
                (
                    3,
                    "node 4 stopped\nnode 5 stopped\nupdate not tried\n",
                    "no ready member of chain b runs, and its data is lost: start the server again\n",
                ),
            )


def tried(checks, craqd, craq):
    """Runs all programs at once, and checks how each ended."""
    with tempfile.TemporaryDirectory(prefix="end-to-end-") as home, concurrent.futures.ThreadPoolExecutor(
        40
    ) as pool:
        env = {**os.environ, "HOME": home, "CRAQ_CLIENT": "7"}
        pending = []
        for program, rows in ([craq], ROWS), ([sys.executable, JILSDAU], PYTHON):
            for words, entered, answer, *wanted in rows:
                server = Played(answer)
                words, wanted[1] = words.format(server.address).split(), wanted[1].format(server.address)
                ran = pool.submit(Run, [*program, "--connect", server.address, *words], env, entered)
                pending.append((words, server, ran, wanted))
        checks.part("a stopped member", stopped, craqd, craq, home)
        checks.part("a lost chain", lost, craqd, craq, home)
        for words, server, ran, wanted in pending:
            judge(checks, words, server, ran.result(), wanted)
