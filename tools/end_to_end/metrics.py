"""craqd --metrics: the pages, what they count, and clients of that listener that do harm. craq bench
and craq watch, which need it."""
import json
import os
import re
import shutil
import socket
import subprocess
import tempfile
import threading
import time

from tools import plain_client as example
from tools.end_to_end import faults, running
from tools.hostile.refused import Library
from tools.sockets import free_port, read_to_end

# Connections at once, the seconds that each has, and the bytes of a request's head.
AT_ONCE, SECONDS, HEAD = 16, 5, 4096
FLOOD, GARBAGE = 1_000, 300
# Numbers of the asks for memory that are refused, each in a server of its own, and its puts.
REFUSED, PUTS = range(1, 61), 12
PROMETHEUS = "text/plain; version=0.0.4; charset=utf-8"
PLAIN = "text/plain; charset=utf-8"
NO_PAGE = "expected /metrics, /healthz or /status.json\n"
NO_REQUEST = "expected a request of HTTP/1.1\n"
NOT_GET = "expected the method GET\n"
# A line of a page for Prometheus.
LINE = re.compile(
    r'(# HELP [a-z_]+ .+|# TYPE [a-z_]+ (?:counter|gauge)|'
    r'[a-z_]+(?:\{[a-z]+="[^"]*"(?:,[a-z]+="[^"]*")*\})? [0-9]+)'
)

# Requests that are none, or for no page, and their status and body.
ROWS = [
    (b"GET /keys HTTP/1.1\r\nHost: h\r\n\r\n", "404 Not Found", NO_PAGE),
    (b"GET / HTTP/1.0\r\n\r\n", "404 Not Found", NO_PAGE),
    (b"GET /metrics?name=x HTTP/1.1\r\n\r\n", "404 Not Found", NO_PAGE),
    (b"POST /metrics HTTP/1.1\r\nContent-Length: 0\r\n\r\n", "405 Method Not Allowed\r\nAllow: GET", NOT_GET),
    (b"HEAD /metrics HTTP/1.1\r\n\r\n", "405 Method Not Allowed\r\nAllow: GET", NOT_GET),
    (b"GET /metrics HTTP/2.0\r\n\r\n", "400 Bad Request", NO_REQUEST),
    (b"\x00\x01\x02\x03\r\n\r\n", "400 Bad Request", NO_REQUEST),
    (b"GET /metrics HTTP/1.1\r\n" + b"a: b\r\n" * 65 + b"\r\n", "400 Bad Request", NO_REQUEST),
    (b"GET /metrics HTTP/1.1\r\na: " + b"b" * HEAD, "431 Request Header Fields Too Large", NO_REQUEST),
]


class Measured:
    """A craqd that serves its metrics, which takes control lines and ends once they end."""

    def __init__(self, craqd, *options, env=()):
        self.file, self.page = running.text_file(running.PLAN), free_port()
        words = [
            craqd,
            "--control",
            "--metrics",
            f"127.0.0.1:{self.page}",
            *running.OPTIONS,
            *options,
            self.file.name,
            "127.0.0.1:0",
        ]
        self.process = subprocess.Popen(
            words,
            stdin=subprocess.PIPE,
            stdout=subprocess.PIPE,
            stderr=subprocess.PIPE,
            env={**os.environ, **dict(env)},
        )
        found = re.fullmatch(rb"listening ([1-9][0-9]*)\n", self.process.stdout.readline())
        self.port = int(found[1]) if found else 0
        self.began = self.process.stderr.readline().decode()

    def __enter__(self):
        return self

    def __exit__(self, *_):
        if self.process.poll() is None:
            self.process.kill()
            self.process.wait()
        self.file.close()

    @property
    def address(self):
        return f"127.0.0.1:{self.port}"

    def connect(self):
        return socket.create_connection(("127.0.0.1", self.page), running.PATIENCE)

    def answer(self, request):
        """Returns what is answered to the bytes of a request, as text."""
        with self.connect() as made:
            made.sendall(request)
            return read_to_end(made).decode()

    def get(self, path):
        """Returns the status, the type and the body of a page."""
        head, _, body = self.answer(
            f"GET {path} HTTP/1.1\r\nHost: h\r\nAccept: */*\r\n\r\n".encode()
        ).partition("\r\n\r\n")
        lines = head.split("\r\n")
        fields = dict(it.split(": ", 1) for it in lines[1:])
        whole = (
            fields.get("Content-Length") == str(len(body.encode())) and fields.get("Connection") == "close"
        )
        return lines[0] if whole else f"a response cut short: {head}", fields.get("Content-Type"), body

    def samples(self):
        """Returns the samples of the page for Prometheus, by name and labels."""
        lines = (it.rpartition(" ") for it in self.get("/metrics")[2].splitlines() if not it.startswith("#"))
        return {name: int(value) for name, _, value in lines}

    def control(self, line):
        self.process.stdin.write(line.encode() + b"\n")
        self.process.stdin.flush()
        return self.process.stderr.readline().decode()

    def finish(self, checks, what):
        began = time.time()
        try:
            self.process.communicate(timeout=running.PATIENCE)
            checks.same(f"{what}: the status of the server", self.process.returncode, 0)
            checks.that(
                time.time() - began < 3,
                f"{what}: the server ends within 3 seconds: {time.time() - began:.1f}",
            )
        except subprocess.TimeoutExpired:
            checks.that(False, f"{what}: the server ends")


def pages(checks, craqd):
    """Each page has its form, and counts what was asked."""
    with Measured(craqd) as server:
        checks.that(
            server.began.endswith(f", metrics on port {server.page}\n"),
            f"craqd tells the port of its metrics: {server.began!r}",
        )
        with example.Client(server.address) as client:
            for number in range(5):
                client.put(f"k{number}", b"abc")
            client.read("k1")
            client.read("k2", node=2)
            client.status()
        status, kind, body = server.get("/metrics")
        checks.same("/metrics", (status, kind), ("HTTP/1.1 200 OK", PROMETHEUS))
        strange = [it for it in body.splitlines() if not LINE.fullmatch(it)]
        checks.same("/metrics: lines of another form", strange, [])
        lint(checks, body)
        found = server.samples()
        wanted = {
            "craqd_open_connections": 0,
            'craqd_requests_total{kind="read"}': 2,
            "craqd_turned_away_total": 0,
            'craqd_chain_epoch{chain="a"}': 1,
            'craqd_chain_members{chain="a"}': 3,
            'craqd_chain_members{chain="b"}': 2,
            **{
                f'craqd_node_{name}{{chain="a",node="{node}"}}': value
                for node in (1, 2, 3)
                for name, value in (
                    ("ready", 1),
                    ("running", 1),
                    ("entries", 5),
                    ("committed_entries", 5),
                    ("waiting_requests", 0),
                    ("objects", 5),
                    ("bytes", 25),
                    ("lost_messages_total", 0),
                )
            },
            'craqd_node_objects{chain="b",node="4"}': 0,
        }
        checks.same("what /metrics counts", {it: found.get(it) for it in wanted}, wanted)
        checks.that(found['craqd_requests_total{kind="update"}'] >= 5, f"/metrics counts updates: {found}")
        checks.that(
            found['craqd_requests_total{kind="status"}'] >= 1,
            f"/metrics counts requests for the status: {found}",
        )
        checks.that(
            found["craqd_read_bytes_total"] > 5 * 40 and found["craqd_written_bytes_total"] > 5 * 20,
            f"/metrics counts bytes: {found}",
        )
        told = json.loads(server.get("/status.json")[2])
        checks.same(
            "/status.json: its chains",
            [(it["name"], it["epoch"], [node["node"] for node in it["nodes"]]) for it in told["chains"]],
            [("a", 1, [1, 2, 3]), ("b", 1, [4, 5])],
        )
        checks.same(
            "/status.json: its first node",
            told["chains"][0]["nodes"][0],
            {
                "bytes": 25,
                "committed": 5,
                "length": 5,
                "lost": 0,
                "node": 1,
                "objects": 5,
                "ready": True,
                "running": True,
                "waiting": 0,
            },
        )
        checks.same(
            "/status.json: its requests",
            told["requests"],
            {
                "reads": 2,
                "statuses": found['craqd_requests_total{kind="status"}'],
                "updates": found['craqd_requests_total{kind="update"}'],
            },
        )
        checks.same("/healthz", server.get("/healthz"), ("HTTP/1.1 200 OK", PLAIN, "ok\n"))
        for request, status, body in ROWS:
            head = f"HTTP/1.1 {status}\r\nContent-Type: {PLAIN}\r\nContent-Length: {len(body)}\r\n"
            wanted = f"{head}Connection: close\r\n\r\n{body}"
            checks.same(f"the request {request[:60]!r}", server.answer(request), wanted)
        server.finish(checks, "pages")


def lint(checks, body):
    """Has Debian's promtool read a page, where the package prometheus is installed."""
    if shutil.which("promtool"):
        ran = subprocess.run(
            ["promtool", "check", "metrics"],
            input=body,
            capture_output=True,
            text=True,
            timeout=running.PATIENCE,
        )
        checks.same("promtool check metrics", (ran.returncode, ran.stdout, ran.stderr), (0, "", ""))


def refusals(checks, craqd):
    """A refused request is counted under its number, and a node that stops, goes and joins is shown."""
    with Measured(craqd) as server:
        number = 'craqd_refusals_total{number="9"}'
        checks.same("refusals before the first", server.samples()[number], 0)
        with socket.create_connection(("127.0.0.1", server.port), running.PATIENCE) as made:
            made.sendall(
                bytes.fromhex(
                    "00000026 0101 00000002 0000000000000000 0000000000000001 0000000000000001 01 "
                    "0000 016b 000161"
                )
            )
            made.recv(64)
        checks.same("refusals after one", server.samples()[number], 1)
        for refused, frame in (15, "00000001 ff"), (16, "00100001"):
            with socket.create_connection(("127.0.0.1", server.port), running.PATIENCE) as made:
                made.sendall(bytes.fromhex(frame))
                made.recv(64)
            found = server.samples()[f'craqd_refusals_total{{number="{refused}"}}']
            checks.same(f"refusals {refused} after the frame {frame}", found, 1)
        server.control("stop a/2")
        found = server.samples()
        checks.same(
            "a stopped node",
            (found['craqd_node_running{chain="a",node="2"}'], found['craqd_node_ready{chain="a",node="2"}']),
            (0, 1),
        )
        server.control("remove a/2")
        server.control("join a/9")
        ends = time.time() + running.PATIENCE
        while server.samples().get('craqd_node_ready{chain="a",node="9"}') != 1 and time.time() < ends:
            time.sleep(0.05)
        found = server.samples()
        checks.same(
            "a chain after a removal and a join",
            (found['craqd_chain_epoch{chain="a"}'], found['craqd_chain_members{chain="a"}']),
            (3, 3),
        )
        checks.that('craqd_node_ready{chain="a",node="2"}' not in found, "a removed node is not shown")
        for node in 4, 5:
            server.control(f"stop b/{node} --force")
        checks.same(
            "/healthz of a chain that has stopped",
            server.get("/healthz"),
            ("HTTP/1.1 503 Service Unavailable", PLAIN, "chain b has no ready node\n"),
        )
        server.finish(checks, "refusals")


def hostile(checks, craqd):
    """Half requests, too many connections and garbage: the pages come back, and the store answers all
    the while."""
    with Measured(craqd) as server, example.Client(server.address) as client:
        before = time.time()
        halves = [server.connect() for _ in range(AT_ONCE)]
        for made in halves:
            made.sendall(b"GET /metrics HTTP/1.1\r\n")
        time.sleep(0.3)
        with server.connect() as made:
            checks.same("one connection more than there may be", read_to_end(made), b"")
        client.put("k", b"v")
        for made in halves:
            checks.same("half a request", read_to_end(made), b"")
        checks.that(
            SECONDS - 1 < time.time() - before < SECONDS + 3,
            f"half requests end after 5 seconds: {time.time() - before:.1f}",
        )
        checks.same("/healthz after half requests", server.get("/healthz")[2], "ok\n")
        flood(checks, server, client)
        for _ in range(GARBAGE):
            with server.connect() as made:
                made.sendall(bytes(range(256)))
                read_to_end(made)
        checks.same("/healthz after garbage", server.get("/healthz")[2], "ok\n")
        checks.same("a read after all of them", client.read("k").value, b"v")
        halves = [server.connect() for _ in range(3)]
        server.finish(checks, "a server with open connections of its metrics")


def flood(checks, server, client):
    """Many connections at once, which send nothing."""
    some, slowest = [], 0
    for number in range(FLOOD):
        made = socket.socket()
        made.setblocking(False)
        made.connect_ex(("127.0.0.1", server.page))
        some.append(made)
        if number % 50 == 0:
            began = time.time()
            client.put("k", b"v")
            slowest = max(slowest, time.time() - began)
    checks.that(
        slowest < 1,
        f"a put beside {FLOOD} connections of the metrics takes less than a second: {slowest:.2f}",
    )
    for made in some:
        made.close()
    ends, found = time.time() + running.PATIENCE, ""
    while found != "ok\n" and time.time() < ends:
        try:
            found = server.get("/healthz")[2]
        except (OSError, ValueError):
            time.sleep(0.1)
    checks.same("/healthz after many connections", found, "ok\n")


def bench(checks, craqd, craq):
    """craq bench with options: its table and its histogram, and no clients and objects but those that
    each run has."""
    with Measured(craqd) as server:
        ask = [craq, "--connect", server.address, "bench"]
        for options in [
            "--connections",
            "3",
            "--seconds",
            "1",
            "--mix",
            "40",
            "--keys",
            "7",
            "--size",
            "100",
        ], ["2", "1", "0", "--keys", "7"]:
            status, out, err = running.ended([*ask, *options])
            rows = re.findall(r"^(strong read|put) +([0-9]+) +[0-9]+ +([0-9]+)(?: +[0-9]+){4}$", out, re.M)
            bins = re.findall(r"^([0-9]+|longer) +([0-9]+) +([0-9]+) #*$", out, re.M)
            what = f"craq bench {' '.join(options)}"
            checks.same(
                what,
                (status, err, [row[0] for row in rows], [row[2] for row in rows]),
                (0, "", ["strong read", "put"], ["0", "0"]),
            )
            sums = [sum(int(it[column]) for it in bins) for column in (1, 2)]
            checks.same(f"{what}: its histogram", sums, [int(row[1]) for row in rows])
        checks.same("the objects of two loads", server.samples()['craqd_node_objects{chain="a",node="1"}'], 7)
        with example.Client(server.address) as client:
            checks.same("the value of a put of a load", client.read("bench-0").value, b"0123456789abcdef")
        for options, text in (
            (["--size", "4097"], "--size takes a number from 0 to 4096"),
            (["--keys", "0"], "--keys takes a number from 1 to 1000000"),
            (["--mix", "101"], "--mix takes a number from 0 to 100"),
            (["--connections", "0"], "--connections takes a number from 1 to 1000"),
            (["--seconds", "x"], "--seconds takes a number from 1 to 86400"),
            (["--metrics", "x"], "--metrics is an option of watch"),
        ):
            status, out, err = running.ended([*ask, *options])
            checks.that(
                (status, out) == (2, "") and text in err, f"craq bench {options}: {status} {out!r} {err!r}"
            )
        status, out, err = running.ended([craq, "--connect", server.address, "watch", "1", "--keys", "3"])
        checks.that(
            (status, out) == (2, "") and "are options of bench" in err,
            f"craq watch --keys: {status} {out!r} {err!r}",
        )
        server.finish(checks, "bench")


def watch(checks, craqd, craq):
    """craq watch --metrics shows memberships and positions as they change."""
    with Measured(craqd) as server:
        words = [craq, "--connect", server.address, "watch", "4", "--metrics", f"127.0.0.1:{server.page}"]
        watching = subprocess.Popen(
            words, stdin=subprocess.DEVNULL, stdout=subprocess.PIPE, stderr=subprocess.PIPE
        )
        first = [watching.stdout.readline().decode() for _ in range(2)]
        checks.same(
            "craq watch --metrics: its first lines",
            first,
            [
                "chain a, epoch 1: node 1 0/0, node 2 0/0, node 3 0/0\n",
                "chain b, epoch 1: node 4 0/0, node 5 0/0\n",
            ],
        )
        with example.Client(server.address) as client:
            client.put("k", b"v")
        time.sleep(0.7)
        server.control("stop a/3")
        time.sleep(0.7)
        server.control("remove a/3")
        out, err = watching.communicate(timeout=running.PATIENCE)
        lines = out.decode().splitlines()
        for wanted in (
            "chain a, epoch 1: node 1 1/1, node 2 1/1, node 3 1/1",
            "chain a, epoch 1: node 1 1/1, node 2 1/1, node 3 1/1 stopped",
            "chain a, epoch 2: node 1 1/1, node 2 1/1",
        ):
            checks.that(wanted in lines, f"craq watch --metrics prints {wanted!r}: {lines}")
        checks.same("craq watch --metrics: its end", (watching.returncode, err), (0, b""))
        found = running.ended([craq, "watch", "1", "--metrics", f"127.0.0.1:{free_port()}"])
        checks.same("craq watch --metrics where nothing listens", found, (4, "", "connection\n"))
        server.finish(checks, "watch")


def taken(checks, craqd):
    """An address of metrics that is in use, or is none."""
    with socket.create_server(("127.0.0.1", 0)) as it, running.text_file(running.PLAN) as file:
        for address, reason in (f"127.0.0.1:{it.getsockname()[1]}", faults.IN_USE), ("nowhere", faults.FORM):
            found = running.ended([craqd, "--metrics", address, file.name, "127.0.0.1:0"])
            told = f"cannot listen\ncraqd: --metrics {address}: {reason}\n"
            checks.same(f"craqd --metrics {address}", found, (4, "", told))


def at_once(checks, craqd):
    """Pages that several scrapers ask for beside a load."""
    with Measured(craqd) as server:
        over, faults = threading.Event(), []

        def load(name):
            with example.Client(server.address) as client:
                while not over.is_set():
                    client.put(name, b"v")

        loading = [threading.Thread(target=load, args=(f"k{it}",)) for it in range(4)]
        for it in loading:
            it.start()
        for _ in range(30):
            found = server.samples()
            if (
                not found['craqd_node_committed_entries{chain="a",node="1"}']
                <= found['craqd_node_entries{chain="a",node="1"}']
            ):
                faults.append(found)
        over.set()
        for it in loading:
            it.join(running.PATIENCE)
        checks.same("pages beside a load in which more is committed than there is", faults, [])
        ends = time.time() + running.PATIENCE
        while server.samples()["craqd_open_connections"] and time.time() < ends:
            time.sleep(0.05)
        checks.same("open connections after all have ended", server.samples()["craqd_open_connections"], 0)
        server.finish(checks, "at once")


def lost_under(craqd, env):
    """Puts objects into a server, and returns how many lost messages its nodes count."""
    with Measured(craqd, env=env) as server:
        with example.Client(server.address) as client:
            for it in range(PUTS):
                client.put(f"k{it}", b"v" * 40)
        return sum(
            it for name, it in server.samples().items() if name.startswith("craqd_node_lost_messages_total{")
        )


def losses(checks, craqd):
    """Servers of which each refuses one ask for memory after it listens: an ask to encode, queue or
    decode a message loses that message, and no other one does."""
    with tempfile.TemporaryDirectory(prefix="lost-") as folder:
        library = Library(folder)
        lost = [lost_under(craqd, library.refusing(memory=it, after="listening")) for it in REFUSED]
    checks.same("lost messages where one ask for memory is refused", {*lost}, {0, 1})


def tried(checks, craqd, craq):
    checks.part("the pages of metrics", pages, craqd)
    checks.part("refusals and nodes on the pages", refusals, craqd)
    checks.part("pages beside a load", at_once, craqd)
    checks.part("lost messages on the pages", losses, craqd)
    checks.part("hostile clients of the metrics", hostile, craqd)
    checks.part("addresses of metrics", taken, craqd)
    checks.part("craq bench with options", bench, craqd, craq)
    checks.part("craq watch --metrics", watch, craqd, craq)
