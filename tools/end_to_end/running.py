"""Starts the two programs, and counts what passed."""
import re
import resource
import select
import socket
import subprocess
import tempfile
import time
import tomllib

PATIENCE = 20
PLAN = """\
[[chain]]
name = "a"
nodes = [1, 2, 3]

[[chain]]
name = "b"
nodes = [4, 5]
"""
STATUS = '{"chains":[{"epoch":1,"members":[1,2,3],"name":"a"},{"epoch":1,"members":[4,5],"name":"b"}]}'


def text_file(text):
    """Returns a file with this text or these bytes, which is removed once it is closed."""
    file = tempfile.NamedTemporaryFile(prefix="end-to-end-")
    file.write(text if isinstance(text, bytes) else text.encode())
    file.flush()
    return file


def limited(what, to):
    """Limits what a program may have that is being started; None does not."""
    return to and (lambda: resource.setrlimit(what, (to, to)))


def ended(words, space=None):
    """Runs a program to its end: its status, standard output and standard error."""
    ran = subprocess.run(
        words,
        stdin=subprocess.DEVNULL,
        capture_output=True,
        timeout=PATIENCE,
        preexec_fn=limited(resource.RLIMIT_AS, space),
    )
    return ran.returncode, ran.stdout.decode(), ran.stderr.decode()


def way(options):
    """Yields the parts of the line in which a craqd with these options says in which way it serves."""
    given = dict(zip(options, options[1:]))
    threads, idle = given.get("--threads", "0"), given.get("--idle", "0")
    yield {"0": "a thread for each connection", "1": "1 thread for all connections"}.get(
        threads, f"{threads} threads for all connections"
    )
    if given.get("--most", "0") != "0":
        yield f"at most {given['--most']}"
    if idle != "0":
        yield f"each ended after {idle} silent seconds"
    yield "journals" if "--journal" in options else "no journals"


def served_line(file, port, *way, plan=None):
    """Returns a pattern of the line that craqd prints on standard error for the plan in this file: where it
    listens, at any port if `port` is None, the chains, and the way of serving."""
    chains = "".join(
        f" chain {it['name']} of nodes {' '.join(map(str, it['nodes']))},"
        for it in tomllib.loads(plan or PLAN)["chain"]
    )
    told = (
        re.escape(f"serves {file.name} at 127.0.0.1:0, port "),
        port or "[0-9]+",
        re.escape(f":{chains} {', '.join(way)}\n"),
    )
    return r"craqd [0-9]+\.[0-9]+\.[0-9]+ {}{}{}".format(*told)


def unheard(words):
    """Runs a program whose standard output takes nothing: its status and standard error."""
    with open("/dev/full", "wb") as full:
        ran = subprocess.run(
            words, stdin=subprocess.DEVNULL, stdout=full, stderr=subprocess.PIPE, timeout=PATIENCE
        )
    return ran.returncode, ran.stderr.decode()


# The options of craqd beside those that a check needs, for each server; and those that name each way of
# serving.
OPTIONS = []
WAYS = [], ["--threads", "2"]


def in_each_way(checks, run):
    """Calls `run` once in each way of serving, and returns its results in words. A check that fails
    names the way."""
    title, told = checks.title, []
    for options in WAYS:
        OPTIONS[:], serves = options, next(way(options))
        checks.title = f"{title}, with {serves}"
        try:
            told.append(f"with {serves}: {run()}")
        finally:
            OPTIONS.clear()
            checks.title = title
    return "; ".join(told)


class Server:
    """A craqd that runs on a free port of the loopback, and what it has to tell in the end.

    It ends after `connections` of them, so each one that is made has to be counted, by `connect` or by
    `counts`.
    """

    def __init__(self, craqd, plan, connections, journal=True, files=None, env=None):
        self.left = connections
        self.plan, self.journal = plan, journal
        self.file = text_file(plan)
        words = [
            craqd,
            *(["--journal"] if journal else []),
            "--connections",
            str(connections),
            *OPTIONS,
            self.file.name,
            "127.0.0.1:0",
        ]
        self.process = subprocess.Popen(
            words,
            stdin=subprocess.DEVNULL,
            stdout=subprocess.PIPE,
            stderr=subprocess.PIPE,
            env=env,
            preexec_fn=limited(resource.RLIMIT_NOFILE, files),
        )
        tells, _, _ = select.select([self.process.stdout], [], [], PATIENCE)
        self.first = self.process.stdout.readline().decode() if tells else ""
        found = re.fullmatch(r"listening ([1-9][0-9]*)\n", self.first)
        self.port = int(found[1]) if found else 0
        self.answered = {}

    @property
    def address(self):
        return f"127.0.0.1:{self.port}"

    def served(self):
        """Returns a pattern of the line that it prints on standard error as it begins."""
        return served_line(self.file, self.port, *way(["--journal"] * self.journal + OPTIONS), plan=self.plan)

    def counts(self, connections=1):
        self.left -= connections

    def answers(self, chain, asks=1):
        """Counts asks of a chain that were answered, of which the audit has a receipt each."""
        self.answered[chain] = self.answered.get(chain, 0) + asks

    def connect(self):
        self.counts()
        made = socket.create_connection(("127.0.0.1", self.port), PATIENCE)
        made.setsockopt(socket.IPPROTO_TCP, socket.TCP_NODELAY, 1)
        return made

    def seconds(self):
        """Returns the processor seconds that it took so far."""
        with open(f"/proc/{self.process.pid}/stat", encoding="ascii", errors="replace") as it:
            times = it.read().rpartition(")")[2].split()[11:13]
        return sum(map(int, times)) / 100

    def memory(self):
        """Returns the MiB of memory that it has."""
        with open(f"/proc/{self.process.pid}/status", encoding="ascii", errors="replace") as it:
            return int(re.search(r"VmRSS:\s+(\d+)", it.read())[1]) / 1024

    def runs(self):
        return self.process.poll() is None

    def finish(self, checks, what, wanted):
        """Makes the connections that are left, and looks at what it then tells."""
        try:
            while self.left > 1:
                with self.connect() as made:
                    made.shutdown(socket.SHUT_WR)
                    made.recv(1)
            time.sleep(0.1)
            checks.that(self.runs(), f"{what}: runs until its last connection")
            self.connect().close()
        except OSError as failure:
            checks.that(False, f"{what}: {self.left} connections before its last: {failure}")
        try:
            out, err = self.process.communicate(timeout=PATIENCE)
            found = (self.process.returncode, self.first + out.decode())
            checks.that(
                re.fullmatch(self.served(), err.decode()),
                f"{what}: on standard error {err.decode()!r} and not {self.served()!r}",
            )
        except subprocess.TimeoutExpired:
            found = "no end"
        checks.same(what, found, (0, f"listening {self.port}\n" + wanted))
        self.kill()

    def kill(self):
        if self.runs():
            self.process.kill()
            self.process.wait()
        self.file.close()
