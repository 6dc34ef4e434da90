"""A client of one connection (tools/plain_client.py): versions 1 and 2, eight clients at once, requests
that do not wait for replies, lost replies; and the command of clients/python."""
import os
import random
import re
import socket
import sys
import threading

from tools import plain_client as example
from tools import repository
from tools.end_to_end import running
from tools.plain_client import (
    Client,
    CompareFailed,
    Done,
    Mismatch,
    NotANumber,
    Overflow,
    Read,
    Refused,
    Stale,
    TooLong,
    Underflow,
    Written,
)

AT_ONCE, ROUNDS, TOGETHER = 8, 25, 8
# The id of the command: no other client has it.
CLIENT = 0xC0DE
WORKED = [
    ("put", example.one(1, example.update_request(1, 0, 1, 1, example.put(0, "k", b"a")))),
    ("read", example.one(1, example.read_request(3, 9, example.STRONG, 0, "k"))),
    ("read in version 2", example.one(2, example.read_request(3, 9, example.STRONG, 0, "k"))),
    ("status", example.one(1, (example.STATUS, b""))),
    (
        "many",
        example.many(
            [
                example.update_request(1, 0, 1, 1, example.put(0, "k", b"a")),
                example.read_request(3, 0, example.STRONG, 0, "k"),
            ]
        ),
    ),
    ("tas", example.test_and_set(0, "k", 2, b"b")),
    ("append", example.append(1, "list", b"cd")),
    ("prepend", example.prepend(1, "list", b"")),
    ("inc", example.increment(0, "n", 7)),
    ("dec", example.decrement(0, "n", 258)),
    ("mini", example.mini(0, [("a", 1)], ["a", "z"], [("a", b"2")])),
    ("bounded", example.bounded(9)),
]


def page(checks):
    """The client writes the bytes that docs/use/BYTES.md has."""
    file = os.path.join(os.path.dirname(os.path.realpath(__file__)), "..", "..", "docs", "use", "BYTES.md")
    with open(file, encoding="utf-8") as it:
        worked = {cell.replace(" ", "") for cell in re.findall(r"`([0-9a-f ]+)`", it.read())}
    for what, payload in WORKED:
        framed = len(payload).to_bytes(4, "big") + payload
        checks.that(
            {payload.hex(), framed.hex()} & worked,
            f"docs/use/BYTES.md has the bytes of {what}: {payload.hex()}",
        )


class Counted:
    """A client whose answered asks the server counts, by chain."""

    def __init__(self, server, version, chain=0):
        server.counts()
        self.server, self.client, self.chain = server, Client(server.address, version), chain
        self.client.connection.socket.settimeout(running.PATIENCE)
        self.asks = 0

    def ask(self, name, *words, **more):
        """Returns the result of the call, or the refusal as (number, detail)."""
        try:
            told = getattr(self.client, name)(*words, chain=self.chain, **more)
        except Refused as refused:
            return refused.number, refused.detail
        self.asks += 1
        return told

    def many(self, requests):
        told = self.client.many(requests)
        self.asks += sum(not isinstance(it, Refused) for it in told)
        return told

    def close(self):
        self.client.close()
        self.server.answers(self.chain, self.asks)


# Calls and their results for a client without updates, on an object that no other client writes; {} stands
# for its name.
CALLS = [
    ("read", ["{}"], {}, Read(0, b"")),
    ("put", ["{}", b"a\0\xff"], {}, Written(1)),
    ("put", ["{}", b"z"], {"request": 1}, Written(1)),
    ("read", ["{}", example.EVENTUAL], {"node": "head"}, Read(1, b"a\0\xff")),
    ("read", ["{}", example.bounded(9)], {"node": "head"}, Read(1, b"a\0\xff")),
    ("tas", ["{}", 0, b"b"], {}, Mismatch(1)),
    ("tas", ["{}", 1, b"b"], {}, Written(2)),
    ("append", ["{}", b"c"], {}, Written(3)),
    ("prepend", ["{}", b"a"], {}, Written(4)),
    ("append", ["{}", b"v" * 4096], {}, TooLong()),
    ("read", ["{}"], {"node": "tail"}, Read(4, b"abc")),
    ("inc", ["{}"], {}, NotANumber()),
    ("inc", ["{}.n", 258], {}, Written(1)),
    ("dec", ["{}.n", 259], {}, Underflow()),
    ("inc", ["{}.n", 2**64 - 1], {}, Overflow()),
    ("dec", ["{}.n", 2], {}, Written(2)),
    (
        "mini",
        [[("{}", 4)], ["{}", "{}.n", "{}.z"], [("{}", b"d"), ("{}.m", b"")]],
        {},
        Done([Read(4, b"abc"), Read(2, b"\0\0\0\0\0\0\1\0"), Read(0, b"")]),
    ),
    ("mini", [[("{}.m", 1), ("{}", 4)], [], [("{}", b"e")]], {}, CompareFailed(1)),
    ("read", ["{}"], {}, Read(5, b"d")),
    ("put", ["{}", b"z"], {"request": 1}, Stale(13)),
    ("read", ["{}"], {"node": 99}, (23, 0)),
    ("put", ["{}", b"e"], {"node": "tail"}, (9, "head")),
]


def named(it, name):
    """Returns the words of a call with the object's name in them."""
    if isinstance(it, (list, tuple)):
        return type(it)(named(one, name) for one in it)
    return it.format(name) if isinstance(it, str) else it


def calls(checks, server, version, chain):
    made = Counted(server, version, chain)
    members = made.client.chains[chain]["members"]
    where = {"head": members[0], "tail": members[-1]}
    for call, words, more, wanted in CALLS:
        more = {key: where.get(it, it) for key, it in more.items()}
        if isinstance(wanted, tuple):
            wanted = wanted[0], where.get(wanted[1], wanted[1])
        shown = made.client.shown
        found = made.ask(call, *named(words, f"calls{version}"), **more)
        checks.same(f"{call} in version {version} on chain {chain}", found, wanted)
        checks.that(
            isinstance(found, tuple) or made.client.shown > shown, f"the pass rises in version {version}"
        )
    made.close()


def batches(checks, server):
    """Eight requests in one frame: their replies in order, a refused one among them."""
    made = Counted(server, 2)
    client = made.client
    asks = [client.asks_put("batch", b"%d" % at) for at in range(3)] + [client.asks_read("batch", node=1)]
    told = made.many(
        asks
        + [
            client.asks_read("batch", node=99),
            client.asks_read("batch", chain=9, node=1),
            (example.STATUS, b""),
        ]
    )
    checks.same("a batch", told[:4], [Written(1), Written(2), Written(3), Read(3, b"2")])
    checks.same("refused ones in it", [(it.number, it.detail) for it in told[4:6]], [(23, 0), (7, 0)])
    checks.same("the status in it", told[6:], [running.STATUS])
    made.asks -= 1
    told = made.many(
        [client.asks_put("batch", b"x" * 4096)] + [client.asks_read("batch", node=1) for _ in range(7)]
    )
    checks.same("a batch of great values", told, [Written(4)] + [Read(4, b"x" * 4096)] * 7)
    checks.same("a batch of one", made.many([client.asks_read("batch", node=3)]), [Read(4, b"x" * 4096)])
    made.close()


def pipeline(checks, server, count=500):
    """Requests that do not wait for replies are answered in their order."""
    made = Counted(server, 1, chain=1)
    client = made.client
    asks = [client.asks_update(1, example.increment(1, "pipeline", 1)) for _ in range(count)]
    client.connection.send(*[example.one(1 + at % 2, it) for at, it in enumerate(asks)])
    told = [example.replies_of(client.connection.receive())[0][1] for _ in asks]
    checks.same("replies in the order of requests", told, [Written(1 + at) for at in range(count)])
    made.asks += count
    checks.same("what they did", made.ask("read", "pipeline"), Read(count, count.to_bytes(8, "big")))
    made.close()


def mixed(server, at, faults):
    """A client among others, with mixed frames: updates that go together, a retry whose reply comes
    before its turn, a refusal, and reads that see all updates before them."""
    made, chosen = None, random.Random(at)
    try:
        made = Counted(server, 2)
        client, key, version, value = made.client, f"mixed{at}", 0, b""
        head, *others = client.chains[0]["members"]
        for _ in range(ROUNDS):
            asks, wanted = [], []
            while len(asks) < TOGETHER:
                kind = chosen.choice(["put", "put", "put", "put", "retry", "elsewhere", "read"])
                if kind == "put":
                    version, value = version + 1, b"%d" % version
                    asks.append(client.asks_put(key, value))
                    wanted.append(Written(version))
                elif kind == "retry" and version:
                    asks.append(client.asks_update(0, example.put(0, key, value), None, version))
                    wanted.append(Written(version))
                elif kind == "elsewhere":
                    asks.append(client.asks_update(0, example.put(0, key, b""), others[0], version + 1))
                    wanted.append((9, head))
                else:
                    asks.append(client.asks_read(key))
                    wanted.append(Read(version, value))
            told = [(it.number, it.detail) if isinstance(it, Refused) else it for it in made.many(asks)]
            if told != wanted:
                faults.append(f"{told} in place of {wanted}")
    except Exception as failure:
        faults.append(repr(failure))
    finally:
        if made:
            made.close()


def updates_together(checks, server):
    faults = []
    threads = [
        threading.Thread(target=mixed, args=(server, at, faults), daemon=True) for at in range(AT_ONCE)
    ]
    for it in threads:
        it.start()
    for it in threads:
        it.join(running.PATIENCE)
    checks.same("eight clients with mixed frames: faults", faults, [])


def one_of_many(server, at, seen, faults):
    """A client among others: it counts up by increments and by test-and-sets, and reads at all nodes."""
    made = None
    try:
        made = Counted(server, 1 + at % 2)
        client = made.client
        members = client.chains[0]["members"]
        for turn in range(ROUNDS):
            if client.version == 2:
                wrote, found = made.many(
                    [
                        client.asks_update(0, example.increment(0, "shared", 1)),
                        client.asks_read("shared", node=members[0]),
                    ]
                )
            else:
                wrote, found = made.ask("inc", "shared"), made.ask(
                    "read", "shared", node=members[turn % len(members)]
                )
            seen.append(wrote.version)
            if found.version < wrote.version or found.value != found.version.to_bytes(8, "big"):
                faults.append(f"{found} after {wrote}")
            version = made.ask("read", "swapped").version
            while isinstance(told := made.ask("tas", "swapped", version, b"%d" % at), Mismatch):
                version = told.version
    except Exception as failure:
        faults.append(repr(failure))
    finally:
        if made:
            made.close()


def at_once(checks, server):
    seen, faults = [], []
    threads = [
        threading.Thread(target=one_of_many, args=(server, at, seen, faults), daemon=True)
        for at in range(AT_ONCE)
    ]
    for it in threads:
        it.start()
    for it in threads:
        it.join(running.PATIENCE)
    checks.same("eight clients at once: faults", faults, [])
    count = AT_ONCE * ROUNDS
    checks.same("eight clients at once: versions", sorted(seen), list(range(1, count + 1)))
    made = Counted(server, 1)
    for node in made.client.chains[0]["members"]:
        checks.same(
            f"their sum at node {node}",
            made.ask("read", "shared", node=node),
            Read(count, count.to_bytes(8, "big")),
        )
        checks.same(f"their swaps at node {node}", made.ask("read", "swapped", node=node).version, count)
    made.close()


class Cutting:
    """A server's address that passes requests and replies on, but ends the connection in place of the
    first replies to updates."""

    def __init__(self, server, cuts):
        self.server, self.cuts, self.connections, self.asked = server, cuts, 0, 0
        self.listener = socket.create_server(("127.0.0.1", 0))
        self.address = f"127.0.0.1:{self.listener.getsockname()[1]}"
        threading.Thread(target=self.accept, daemon=True).start()

    def accept(self):
        while True:
            try:
                client, _ = self.listener.accept()
            except OSError:
                return
            self.connections += 1
            with client:
                self.pass_on(client)

    def pass_on(self, client):
        """Passes frames on until the client or a cut ends the connection."""
        near, far = example.Connection.over(client), example.Connection(self.server.address)
        try:
            while True:
                request = near.receive()
                far.send(request)
                reply = far.receive()
                updates = request[1] == example.UPDATE
                self.asked += updates
                if updates and self.cuts:
                    self.cuts -= 1
                    return
                near.send(reply)
        except ConnectionError:
            pass
        finally:
            far.close()


def lost_replies(checks, server, cuts=3):
    """An update whose replies are lost is asked again with its number, and is done once."""
    cutting = Cutting(server, cuts)
    client = Client(cutting.address)
    checks.same("a put whose first replies were lost", client.put("lost", b"a"), Written(1))
    checks.same("how often it was asked", cutting.asked, 1 + cuts)
    checks.same("the next one", client.put("lost", b"b"), Written(2))
    checks.same("what both did", client.read("lost"), Read(2, b"b"))
    client.close()
    cutting.listener.close()
    server.counts(cutting.connections)
    server.answers(0, cuts + 3)


COMMAND = repository.path("clients", "python", "jilsdau")
COMMANDS = [
    (["set", "worded", "blue"], 0, "written 1\n"),
    (["get", "worded", "--node", "3", "--print-pass"], 0, "blue\npass N\n"),
    (["cas", "worded", "0", "red"], 5, "mismatch 1\n"),
    (["--chain", "b", "append", "worded", "00", "--hex"], 0, "written 1\n"),
    (["--chain", "1", "get", "worded"], 0, "\0"),
    (["get", "never"], 6, "jilsdau: absent: the object was never written\n"),
    (["add", "worded.n", "2"], 0, "written 1\n"),
    (["get", "worded.n", "--decimal"], 0, "2\n"),
    (["txn", "c:worded:1", "r:worded", "w:worded:green"], 0, "done\n1 blue\n"),
    (["txn", "c:worded:1", "r:worded"], 5, "comparefailed 0\n"),
    (["get", "worded", "--json"], 0, '{"reply": "read", "version": 2, "value": "green", "pass": N}\n'),
    (
        ["set", "worded", "red", "--node", "3"],
        3,
        "jilsdau: refused 9 NotHead 1: updates go to the head, node 1\n",
    ),
    (["--chain", "9", "get", "worded"], 3, "jilsdau: refused 7 UnknownChain: there is no such chain\n"),
    (["members"], 0, "a: 1 2 3\nb: 4 5\n"),
    (["health", "--chain", "b"], 0, "node 4 N ms\nnode 5 N ms\nupdate N ms\n"),
]


def worded(checks, server):
    """Runs the command of clients/python. Its answer is on standard output, a refusal on standard error."""
    for words, wanted_status, wanted in COMMANDS:
        server.counts()
        status, out, err = running.ended(
            ["env", f"CRAQ_CLIENT={CLIENT}", sys.executable, COMMAND, "--connect", server.address, *words]
        )
        found = re.sub('(pass|ms|update|node [0-9]+|"pass":) [0-9.]+', r"\1 N", out + err)
        checks.same(" ".join(words), (status, found), (wanted_status, wanted))
    server.answers(0, 9)
    server.answers(1, 5)
