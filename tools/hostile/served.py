"""Checks the guarantees of a server to its clients while its members change: in each way of serving
clients ask a store of each form, of some chains, over TCP, and all the while a member of some chain
stops, is removed, and another joins (changing.py). One message in 97 is lost.

Each process of clients has some, which ask one thing after another with the client of
tools/plain_client.py, lose replies and ask again, and look at all that a client can see:

- the versions of an object that one client alone writes follow one another, and a strong read of it
  gives what was put, at each member
- the versions that all clients were given of an object that they count up together are 1, 2, 3 and
  so on, each given once
- no version of it that is written or read strongly is older than any answer, of any client, that
  ended before it was asked
  - no strong read that shows a pass, of any client, is older than any answer that came with that
    pass or a smaller one
  - an update that is asked again with its number has the reply that it had, whether that was lost or
    not, at any later head
- each call is answered in ten seconds, however often it is refused meanwhile

In the end no chain has lost an answer, by an audit of all its nodes, those that went too.
"""
import multiprocessing
import random
import re
import time

from tools.hostile import changing, soak
from tools.hostile.asked import example

CHAINS, PROCESSES, ATONCE = 8, 3, 4
# Clients ask until ANSWERED asks are answered, for MOST_SECONDS seconds at most. LOST is the share of
# replies that they lose; KEPT is how many numbers of updates back they ask again.
ANSWERED, MOST_SECONDS, LOST, KEPT = 100_000, 900, 0.02, 4
# Seconds that a stopped member stays at most, and changes of members that each store has to make in a
# second.
STAYS, DUE = 0.05, 2


class Asker:
    """A client. It writes an object of its own in each chain. What all know of a chain: the newest
    version of the object that they count up, and the largest pass."""

    def __init__(self, address, id, draw, seen, newest, passes):
        self.client = changing.Insistent(address, id)
        self.id, self.draw, self.seen, self.newest, self.passes = id, draw, seen, newest, passes
        self.own, self.replies = [[] for _ in range(CHAINS)], [{} for _ in range(CHAINS)]

    def asks(self):
        """Asks one thing of some chain. What it sent, and whether that was answered, counts for
        that chain."""
        chain, before, pick = self.draw.randrange(CHAINS), self.client.asked, self.draw.random()
        try:
            if pick < 0.3:
                self.puts(chain)
            elif pick < 0.5:
                self.counts(chain)
            elif pick < 0.6 and self.replies[chain]:
                self.repeats(chain)
            elif pick < 0.8:
                self.reads_own(chain)
            else:
                self.reads_shared(chain)
            self.seen.answered[chain] += 1
        finally:
            self.seen.asked[chain] += self.client.asked - before

    def updates(self, chain, number, command):
        """Asks an update, perhaps twice; gives its reply."""
        if self.draw.random() < LOST:
            self.client.loses(self.client.asks_update(chain, command, request=number))
            self.seen.lost += 1
        return self.client.update(chain, command, request=number)

    def is_told(self, holds, chain, what, told):
        self.seen.that(holds, f"client {self.id}, chain {chain}: {what}: {told}")

    def puts(self, chain):
        own, number = self.own[chain], self.client.next_number(chain)
        own.append(b"%d/%d" % (self.id, number))
        told = self.updates(chain, number, example.put(chain, f"own-{self.id}", own[-1]))
        self.is_told(told == example.Written(len(own)), chain,
                     f"a put of its own object, of version {len(own)}", told)
        self.replies[chain][number] = told

    def counts(self, chain):
        number, before = self.client.next_number(chain), self.newest[chain]
        told = self.updates(chain, number, example.increment(chain, "shared", 1))
        self.is_told(isinstance(told, example.Written) and told.version > before, chain,
                     f"a count after version {before}", told)
        self.replies[chain][number] = told
        if isinstance(told, example.Written):
            self.seen.counted[chain].append(told.version)
            self.learns(chain, told.version)

    def repeats(self, chain):
        """Repeats one of the last updates with another command. Its reply has to be the first
        one."""
        number = self.draw.choice(sorted(self.replies[chain])[-KEPT:])
        told, wanted = self.updates(chain, number,
                                    example.put(chain, "never", b"")), self.replies[chain][number]
        self.seen.repeated += 1
        self.is_told(told == wanted, chain, f"update {number} again, which had {wanted}", told)

    def reads_own(self, chain):
        own = self.own[chain]
        told = self.client.read(f"own-{self.id}", chain=chain)
        self.is_told(told == example.Read(len(own), own[-1] if own else b""), chain,
                     f"a read of its own object, of version {len(own)}", told)

    def reads_shared(self, chain):
        """Makes a strong read. Half of them show the largest pass of any client's reply."""
        before, shown = self.newest[chain], self.draw.choice([0, self.passes[chain]])
        self.client.shown = max(self.client.shown, shown)
        told = self.client.read("shared", chain=chain)
        is_read = isinstance(told, example.Read) and told.value == (told.version.to_bytes(8, "big")
                                                                    if told.version else b"")
        self.is_told(is_read and told.version >= before, chain, f"a strong read after version {before}", told)
        if is_read:
            self.seen.showed[chain] += [(shown, told.version)] if shown else []
            self.learns(chain, told.version)

    def learns(self, chain, version):
        """Shares an answer about the object that all count up, and its pass, with all clients."""
        self.seen.told[chain].append((self.client.came, version))
        self.newest[chain] = max(self.newest[chain], version)
        self.passes[chain] = max(self.passes[chain], self.client.came)


def asking(at, address, newest, passes, answered, over, given):
    """Runs one process of clients, which ask by turns until it is over, and reports what they saw.
    Meanwhile all see how many asks were answered."""
    seen, again = soak.Seen(CHAINS), 0
    try:
        draw = random.Random(at)
        askers = [Asker(address, 1 + at * ATONCE + it, draw, seen, newest, passes) for it in range(ATONCE)]
        while not over.is_set() and not seen.faults:
            for it in askers:
                it.asks()
            answered[at] = sum(seen.answered)
        again = sum(it.client.again for it in askers)
        for it in askers:
            it.client.close()
    except Exception as failure:
        seen.faults.append(f"process {at}: {failure!r}")
    given.put((seen, again))


def changed(checks, store, answered, given):
    """Members change until enough asks were answered, or clients found something wrong, or time is
    up; gives how often, by chain."""
    draw, changes = random.Random(7), [0] * CHAINS
    client = changing.Insistent(store.address, 1 + PROCESSES * ATONCE)
    until = time.monotonic() + MOST_SECONDS
    while sum(answered) < ANSWERED and time.monotonic() < until and given.empty() and store.runs():
        chain, place = draw.randrange(CHAINS), draw.randrange(3)
        checks.same("what comes of a stop", store.stops(chain, place), "done")
        time.sleep(draw.random() * STAYS)
        checks.same("what comes of a removal and a join", store.replaces(chain, place), ("done", "done"))
        client.chains = client.status()
        checks.same(f"the members of chain {chain} after that", client.members(chain), store.members[chain])
        client.ask_again(lambda: client.asks_read("shared", example.EVENTUAL, chain,
                                                  store.members[chain][-1]), True)
        changes[chain] += 1
    client.close()
    return changes


def ends(checks, store, seen, looks):
    """Ends the store: each chain is audited with all that was answered. `looks` has, for each chain,
    the number of reads at members that joined. Returns how many audits were merged."""
    status, lines, err = store.ends()
    checks.same("how the store ends", (status, err), (0, ""))
    checks.same("how many chains are audited", len(lines), CHAINS)
    merged = 0
    for chain, line in enumerate(lines):
        answered, asked = (sum(counts(it)[chain] for it in seen)
                           for counts in (lambda it: it.answered, lambda it: it.asked))
        found = re.fullmatch(rf"chain {chain} merged (\d+)", line)
        merged += found is not None
        checks.that(found and answered <= int(found[1]) - looks[chain] <= asked,
                    f"{line}, {looks[chain]} of them looks, of {answered} answers to {asked} asks")
    return merged


def serves(checks, program, form):
    """Runs one store, and returns its counts in words."""
    store = changing.Changing(program, CHAINS, form, journals=True)
    try:
        newest, passes = (multiprocessing.Array("Q", CHAINS, lock=False) for _ in range(2))
        answered = multiprocessing.Array("Q", PROCESSES, lock=False)
        given, over = multiprocessing.Queue(), multiprocessing.Event()
        some = [multiprocessing.Process(target=asking,
                                        args=(at, store.address, newest, passes, answered, over, given),
                                        daemon=True) for at in range(PROCESSES)]
        for it in some:
            it.start()
        began = time.monotonic()
        changes = changed(checks, store, answered, given)
        seconds = time.monotonic() - began
        over.set()
        found = [given.get(timeout=changing.PATIENCE * 3) for _ in some]
        for it in some:
            it.join()
        seen = [it for it, _ in found]
        soak.looked_at(checks, seen)
        merged = ends(checks, store, seen, changes)
        return told(checks, seen, seconds, sum(changes), sum(it for _, it in found), merged)
    finally:
        store.kill()


def told(checks, seen, seconds, changes, again, merged):
    """Checks that enough was tried, and returns the counts in words."""
    answered = sum(sum(it.answered) for it in seen)
    lost, repeated = sum(it.lost for it in seen), sum(it.repeated for it in seen)
    checks.that(answered >= ANSWERED and changes >= DUE * seconds and min(lost, repeated, again) > 0,
                f"members change {changes} times, {answered} asks are answered, {lost} replies lost, "
                f"{repeated} updates repeated, {again} asked again")
    return (f"{answered} requests answered and {again} repeated in {seconds:.0f} s while {changes} members "
            f"stopped, were removed and others joined, "
            f"{lost} replies lost, {repeated} updates repeated, {merged} audits merged")


def tried(checks):
    """Serves in each way, with a store of each form, and returns the counts in words."""
    return changing.used(checks,
                         lambda program: changing.in_each_form(checks,
                                                               lambda form: serves(checks, program, form)))
