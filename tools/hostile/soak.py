"""A soak: for some minutes clients ask stores on threads whose nodes stop, go and join, then
processes ask a server of 64 chains, and random scripts are played.

Most of the time, where `rt` is there to build them, programs without proofs run stores of 64
chains, one after another (stores.py): first with checks of addresses and of lost memory, then
optimized. They lose messages, let some come twice or late, stop nodes, take them out and have
others join. Their clients look at what the clients below look at, each chain is audited with every
receipt, and the memory of the process is back after the stores. The run of a chain in which
something is wrong is kept as a file that `craq_lab play` reads. What building takes is told, and
does not count as time of the soak.

The rest of the time processes ask a server, in each way of serving, lose replies and ask again. The
server runs once with journals, which are audited in its end, and once without, where its memory may
not grow, since the clients and their objects stay the same. Each process has some connections, one
client each, and looks at all that a client can see:

- the versions of an object that one client alone writes follow one another, and a read of it gives
  what was put
- the versions that all clients were given of an object that they count up together are 1, 2, 3 and
  so on, each given once
- no strong read is older than any answer, of any process, that ended before it was asked
  - no strong read that shows a pass, of any client, is older than any answer that came with that
    pass or a smaller one
- an update that is asked again with its number has the reply that it had, whether that was lost or not

A running server lets no client stop, remove or join a node. These come up in the stores and in the
random scripts, with lost, late and repeated messages: both cores print the same, and the verdict on
schedules that are drawn of them is true. A script for which that fails is kept as a file that
`craq_lab play` reads.

Five minutes on four processors have to make a million answered calls, a thousand stops and a
thousand joins; other times as many as are due.
"""
import bisect
import collections
import itertools
import multiprocessing
import os
import random
import re
import shutil
import tempfile
import time

from tools.end_to_end import running
from tools.hostile import stores
from tools.hostile.asked import example
from tools.rows import playing, schedules, scripts

CHAINS, NODES = 64, (1, 2, 3)
# Number of processes that ask, of connections of each at a time, and of connections that each may make.
PROCESSES, ATONCE, CONNECTS = 3, 4, 400
ASKS, LOST, KEPT = 8, 0.005, 8
OPEN = (example.STOPPED, example.PENDING_FULL, example.MEMORY, example.CLOSED)
# In which part of the time stores on threads run.
STORED = 0.6
# Seconds that a server runs with journals at most: they grow by some 10 MiB a second.
JOURNALED = 120
# MiB by which a server without journals may grow from the second tenth of its time on.
GROWTH = 24
# Number of processes that play scripts, the distance of the seeds at which they begin, and the number
# of schedules that are drawn of a script.
PLAYERS, FAR, DRAWS = 2, 1_000_000, 3
# The counts of all parts together, by name, each with its name in words.
COUNTED = {"answered": "calls answered", "stops": "stops", "joins": "joins", "lost": "messages lost",
           "late": "messages or batches late", "twice": "messages that came twice",
           "unheard": "replies lost", "repeated": "updates repeated", "passes": "reads with a pass",
           "merged": "audits merged"}
# The counts that five minutes on four processors have to reach.
DUE = {"answered": 1_000_000, "stops": 1_000, "joins": 1_000}


def plan():
    return "".join(f'[[chain]]\nname = "c{at}"\nnodes = {list(NODES)}\n\n' for at in range(CHAINS))


class Seen:
    """The counts, the answers and the faults that one process saw at `chains` chains."""

    def __init__(self, chains=CHAINS):
        self.faults, self.counted = [], {chain: [] for chain in range(chains)}
        self.asked, self.answered = [0] * chains, [0] * chains
        # By chain, of the object that all count up: the pass and the version of each answer, and of
        # each read with a pass what it showed.
        self.told, self.showed = [[] for _ in range(chains)], [[] for _ in range(chains)]
        self.lost = self.repeated = 0

    def that(self, holds, what):
        if not holds and len(self.faults) < 20:
            self.faults.append(what)


class Writer:
    """A client with a connection. It writes an object of its own in each chain. What all know of a
    chain: the newest version of the object that they count up, and the largest pass."""

    def __init__(self, address, id, draw, seen, newest, passes, budget):
        self.address, self.id, self.draw, self.budget = address, id, draw, budget
        self.seen, self.newest, self.passes = seen, newest, passes
        self.connection, self.shown = None, 0
        self.numbers, self.own = [0] * CHAINS, [[] for _ in range(CHAINS)]
        self.replies = [{} for _ in range(CHAINS)]
        # The asks that are under way, what they will put, and how often they were sent.
        self.payload, self.asks, self.coming, self.sent, self.chain = b"", [], [], 0, 0

    def key(self):
        return f"own-{self.id}"

    def next_number(self, chain):
        self.numbers[chain] += 1
        return self.numbers[chain]

    def update(self, chain, number, command):
        return example.update_request(NODES[0], self.shown, self.id, number, command)

    def chosen(self, chain):
        """Draws the next ask. Returns its kind, what its reply is checked with, and its request."""
        pick = self.draw.random()
        if pick < 0.3:
            number = self.next_number(chain)
            value = b"%d/%d" % (self.id, number)
            return "put", (number, value), self.update(chain, number, example.put(chain, self.key(), value))
        if pick < 0.45:
            number = self.next_number(chain)
            return "count", number, self.update(chain, number, example.increment(chain, "shared", 1))
        if pick < 0.5 and self.replies[chain]:
            number = self.draw.choice(sorted(self.replies[chain])[-KEPT // 2:])
            self.seen.repeated += 1
            return "again", number, self.update(chain, number, example.put(chain, "never", b""))
        node, shown = self.draw.choice(NODES), self.draw.choice([0, self.passes[chain]])
        if pick < 0.75:
            return "own", None, example.read_request(node, shown, example.STRONG, chain, self.key())
        read = example.read_request(node, shown, example.STRONG, chain, "shared")
        return "shared", (self.newest[chain], shown), read

    def begin(self):
        """Chooses some asks of one chain."""
        self.chain = self.draw.randrange(CHAINS)
        self.asks = [self.chosen(self.chain) for _ in range(self.draw.randint(1, ASKS // 2))]
        self.coming = [needed[1] for kind, needed, _ in self.asks if kind == "put"]
        self.sent = 0
        self.payload = example.many([it[2] for it in self.asks])

    def send(self):
        if not self.connection:
            self.connection = example.Connection(self.address)
            self.budget -= 1
        self.connection.send(self.payload)
        self.sent += 1
        self.seen.asked[self.chain] += len(self.asks)

    def may_lose(self):
        """Drops the reply now and then, and asks the same again."""
        if self.budget > 1 and self.draw.random() < LOST:
            self.seen.lost += 1
            self.connection.close()
            self.connection = None
            self.send()

    def receive(self):
        """Takes the replies, and asks again what was refused for the moment."""
        for _ in range(20):
            replies = example.replies_of(self.connection.receive())
            told = [it for _, it in replies]
            if len(told) == len(self.asks) and not any(isinstance(it, example.Refused) and it.number in OPEN
                                                       for it in told):
                break
            time.sleep(0.01)
            self.send()
        self.shown = max([self.shown] + [shown for shown, _ in replies if shown is not None])
        self.seen.answered[self.chain] += len(told)
        for ask, (shown, it) in zip(self.asks, replies):
            self.look(*ask[:2], it, shown)

    def look(self, kind, needed, told, shown):
        """Looks at one reply, and the pass that came with it."""
        chain, own, seen = self.chain, self.own[self.chain], self.seen
        where = f"client {self.id}, chain {chain}, {kind} {needed}: {told}"
        if kind == "put":
            number, value = needed
            own.append(value)
            seen.that(told == example.Written(len(own)), f"{where}, wanted version {len(own)}")
            self.keep(number, told)
        elif kind == "count":
            seen.that(isinstance(told, example.Written), where)
            if isinstance(told, example.Written):
                seen.counted[chain].append(told.version)
                self.learn(told.version, shown)
            self.keep(needed, told)
        elif kind == "again":
            seen.that(told == self.replies[chain].get(needed, told),
                      f"{where}, wanted {self.replies[chain].get(needed)}")
        elif kind == "own":
            seen.that(told in self.own_reads(), f"{where}, wanted version {len(own)}")
        else:
            has_version = isinstance(told, example.Read) and told.version
            value = told.version.to_bytes(8, "big") if has_version else b""
            seen.that(isinstance(told, example.Read) and told.version >= needed[0] and told.value == value,
                      where)
            if isinstance(told, example.Read):
                seen.showed[chain] += [(needed[1], told.version)] if needed[1] else []
                self.learn(told.version, shown)

    def learn(self, version, shown):
        """Shares an answer about the object that all count up, and its pass, with all clients."""
        self.seen.told[self.chain].append((shown, version))
        self.newest[self.chain] = max(self.newest[self.chain], version)
        self.passes[self.chain] = max(self.passes[self.chain], shown)

    def own_reads(self):
        """Returns the reads of this client's object that may be answered: of its newest value, and if
        this payload was sent before, of each value that its later puts write."""
        own = self.own[self.chain]
        values = (own[-1:] or [b""]) + (self.coming[len(self.coming) - self.left_to_put():] if self.sent > 1
                                        else [])
        return [example.Read(len(own) + at, it) for at, it in enumerate(values)]

    def left_to_put(self):
        """Returns how many of the values that this payload puts have no checked reply yet."""
        own = self.own[self.chain]
        return sum(it not in own[-len(self.coming):] for it in self.coming) if self.coming else 0

    def keep(self, number, told):
        kept = self.replies[self.chain]
        kept[number] = told
        for old in sorted(kept)[:-KEPT]:
            del kept[old]


def asking(at, address, newest, passes, until, given):
    """Runs one process of clients, which ask until that time, and reports what it saw."""
    seen = Seen()
    try:
        draw = random.Random(at)
        writers = [Writer(address, at * ATONCE + it, draw, seen, newest, passes, CONNECTS // ATONCE)
                   for it in range(ATONCE)]
        while time.monotonic() < until and not seen.faults:
            for it in writers:
                it.begin()
                it.send()
            for it in writers:
                it.may_lose()
                it.receive()
        for it in writers:
            it.connection.close()
        left = sum(it.budget for it in writers)
    except Exception as failure:
        seen.faults.append(repr(failure))
        left = 0
    given.put((seen, left))


def looked_at(checks, seen):
    """Checks what all processes saw together."""
    for it in seen:
        checks.same("what a process of clients found wrong", it.faults, [])
    for chain in range(len(seen[0].asked)):
        versions = sorted(version for it in seen for version in it.counted[chain])
        checks.same(f"the versions that all were given in chain {chain}", versions,
                    list(range(1, len(versions) + 1)))
        told, showed = (sorted(pair for it in seen for pair in pairs(it)[chain])
                        for pairs in (lambda it: it.told, lambda it: it.showed))
        what = f"reads of chain {chain} that are older than an answer of no larger pass than they showed"
        checks.same(what, older(told, showed)[:3], [])


def older(told, showed):
    """Returns the reads, as pairs of the pass that they showed and a version, that are older than
    an answer which came with no larger pass."""
    passes, newest = [it for it, _ in told], [*itertools.accumulate((it for _, it in told), max, initial=0)]
    return [(shown, version) for shown, version in showed
            if version < newest[bisect.bisect_right(passes, shown)]]


def memory_of(server, until):
    """Returns the most memory that the server has in the second tenth of its time, and the most in
    the last tenth."""
    began = time.monotonic()
    early = late = 0.0
    while (now := time.monotonic()) < until and server.runs():
        passed = (now - began) / (until - began)
        early = max(early, server.memory()) if 0.1 <= passed < 0.2 else early
        late = max(late, server.memory()) if passed >= 0.9 else late
        time.sleep(0.2)
    return early, late


def served(checks, craqd, seconds, journal):
    """Asks one server for `seconds` seconds. Returns the counts, and how many asks were answered,
    in words."""
    server = running.Server(craqd, plan(), PROCESSES * CONNECTS + 1, journal=journal)
    try:
        newest, passes = (multiprocessing.Array("Q", CHAINS, lock=False) for _ in range(2))
        given, until = multiprocessing.Queue(), time.monotonic() + seconds
        some = [multiprocessing.Process(target=asking,
                                        args=(at, server.address, newest, passes, until, given), daemon=True)
                for at in range(PROCESSES)]
        for it in some:
            it.start()
        early, late = memory_of(server, until)
        found = [given.get(timeout=running.PATIENCE * 3) for _ in some]
        for it in some:
            it.join()
        seen = [it for it, _ in found]
        server.counts(PROCESSES * CONNECTS - sum(left for _, left in found))
        looked_at(checks, seen)
        if not journal:
            checks.that(late <= early + GROWTH,
                        f"a server without journals grows from {early:.0f} to {late:.0f} MiB")
        ends(checks, server, seen, journal)
    finally:
        server.kill()
    counts = collections.Counter(answered=sum(sum(it.answered) for it in seen),
                                 unheard=sum(it.lost for it in seen),
                                 repeated=sum(it.repeated for it in seen),
                                 passes=sum(len(pairs) for it in seen for pairs in it.showed),
                                 merged=CHAINS if journal else 0)
    asks, lost, again, shown = (counts[it] for it in ("answered", "unheard", "repeated", "passes"))
    checks.that(min(asks, lost, again, shown) > 0,
                f"the soak asks a server, loses replies, repeats updates and shows passes: {counts}")
    return counts, (f"{asks} requests answered {'with' if journal else 'without'} journals, {shown} of "
                    f"them reads of the shared counter with a pass, "
                    f"{lost} replies lost, {again} updates repeated, {early:.0f} to {late:.0f} MiB")


def asked_for(checks, craqd, seconds, counts):
    """Asks a server with journals, and one without, for `seconds` seconds together. Adds to the
    counts, and returns what was seen, in words."""
    journaled, told = min(seconds / 2, JOURNALED), []
    for each, journal in (journaled, True), (seconds - journaled, False):
        more, words = served(checks, craqd, each, journal)
        counts.update(more)
        told.append(words)
    return ", ".join(told)


def ends(checks, server, seen, journal):
    """Makes the connections that are left; then each chain is audited."""
    while server.left > 0 and server.runs():
        server.connect().close()
    out, err = server.process.communicate(timeout=running.PATIENCE * 30)
    checks.same("how the server of the soak ends", server.process.returncode, 0)
    checks.that(re.fullmatch(server.served(), err.decode()),
                f"the server of the soak: on standard error {err.decode()!r}")
    audits = out.decode().splitlines()
    checks.same("how many chains are audited", len(audits), CHAINS if journal else 0)
    for chain, line in enumerate(audits):
        answered, asked = sum(it.answered[chain] for it in seen), sum(it.asked[chain] for it in seen)
        merged = int(line.rpartition(" ")[2]) if line.startswith("audit merged ") else -1
        checks.that(answered <= merged <= asked,
                    f"chain {chain}: {line}, of {answered} answers to {asked} asks")


def script_of(craq_lab, seed):
    """Plays a random script. Returns its text, whether all is well with it, and its counts."""
    kind = scripts.KINDS[seed % len(scripts.KINDS)]
    text, (plain, other) = scripts.played(craq_lab, kind, seed)
    is_well = plain.status == 0 and not plain.errors and plain == other
    for at in range(DRAWS):
        words = ["draw", "--nodes", str(kind.nodes), "/dev/stdin", schedules.choices_of(seed * DRAWS + at)]
        plain, other = playing.on_both(craq_lab, words, text)
        is_well = is_well and plain == other and plain.output.endswith(b"valid true\n")
    arrivals = [int(it) for it in re.findall(rb"^deliver (\d+)$", text, re.M)]
    late = sum(number < largest for number, largest in zip(arrivals[1:], itertools.accumulate(arrivals, max)))
    twice = len(arrivals) - len({*arrivals})
    return text, is_well, collections.Counter(scripts=1, stops=text.count(b"\nstop "),
                                              joins=text.count(b"\njoin "), late=late, twice=twice)


def scripted(craq_lab, seed, until, given):
    """Plays random scripts until that time. Returns the counts, and the names of files with the
    scripts that failed."""
    counts, failed = collections.Counter(), []
    while time.monotonic() < until:
        at = seed + counts["scripts"]
        text, is_well, more = script_of(craq_lab, at)
        counts += more
        if not is_well:
            with tempfile.NamedTemporaryFile(prefix=f"hostile-{at}-", suffix=".script", delete=False) as it:
                it.write(text)
                failed.append(it.name)
    given.put((counts, failed))


def in_all(counts):
    """Returns the counts of all parts of the soak, in words."""
    return "in all " + ", ".join(f"{counts[name]} {words}" for name, words in COUNTED.items())


def is_enough(checks, counts, minutes, names):
    """Checks that the counts reach their share for `minutes` minutes on the processors that there are,
    of four at most."""
    share = minutes / 5 * min(4, len(os.sched_getaffinity(0))) / 4
    for name in names:
        checks.that(counts[name] >= DUE[name] * share, f"{COUNTED[name]} in {minutes} minutes: "
                    f"{counts[name]}, of {DUE[name] * share:.0f} that are due")


def tried(checks, craq_lab, craqd, minutes):
    """Runs the soak, and returns what was tried, in words."""
    if shutil.which("rt"):
        counts, stored = stores.tried(checks, minutes * STORED * 60)
        more, words = scripts_and_servers(checks, craq_lab, craqd, minutes * (1 - STORED))
        is_enough(checks, counts + more, minutes, DUE)
    else:
        counts, stored = collections.Counter(), "stores on threads are left out: there is no rt to build them"
        more, words = scripts_and_servers(checks, craq_lab, craqd, minutes)
        is_enough(checks, more, minutes, ["answered"])
    return f"{stored}; {words}; {in_all(counts + more)}"


def scripts_and_servers(checks, craq_lab, craqd, minutes):
    """Servers that are asked, beside random scripts; gives what was counted, and what was tried, in words."""
    seed, given, until = int(time.time()), multiprocessing.Queue(), time.monotonic() + minutes * 60
    beside = [multiprocessing.Process(target=scripted, args=(craq_lab, seed + at * FAR, until, given),
                                      daemon=True) for at in range(PLAYERS)]
    for it in beside:
        it.start()
    counts = collections.Counter()
    told = running.in_each_way(checks,
                               lambda: asked_for(checks, craqd, minutes * 60 / len(running.WAYS), counts))
    played = [given.get(timeout=minutes * 60 + running.PATIENCE * 30) for _ in beside]
    for it in beside:
        it.join()
    checks.same("scripts of the soak that failed", [name for _, failed in played for name in failed], [])
    checks.that(min(it["scripts"] for it, _ in played) > 0, "the soak plays scripts")
    more = sum((it for it, _ in played), collections.Counter())
    return counts + more, (f"{told}; {more['scripts']} scripts from seed {seed} on, {more['stops']} stops "
                           f"and {more['joins']} joins in them, "
                           f"{DRAWS * more['scripts']} schedules")
