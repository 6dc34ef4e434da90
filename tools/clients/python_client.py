"""Tests the client in Python (clients/python) against a mock server: numbers, passes, retries, pool, command.

It needs no store. tools/clients/run runs it, and tests the client against a store too.
"""
import contextlib
import io
import json
import os
import re
import socket
import subprocess
import sys
import tempfile
import threading
import time
from concurrent.futures import ThreadPoolExecutor

from jilsdau import (BadReply, Chain, Client, Open, Read, Refused, Stale, Written, client, command, identity,
                     wire)
from jilsdau.client import TRIES
from jilsdau.connection import Connection, Deadline
from jilsdau.numbers import Numbers
from jilsdau.wire import Unread, number, value_bytes

from tools import repository

PATIENCE = 20
ID = 77
# In place of a reply the mock server does one of these. Between two bytes of a slow one lie SLOWNESS
# seconds.
CLOSES = None
SILENT, HALF, SLOW = "says nothing", "sends half a reply", "sends a reply byte by byte"
SLOWNESS = 0.1
# The seconds of a try and of all tries, where a server does not answer.
A_TRY, ALL_TRIES = 1, 3


# Replies of the mock server.

def status(*members):
    """Returns the reply to a status: one chain with these members."""
    text = json.dumps({"chains": [{"epoch": 1, "members": members, "name": "a"}]}).encode()
    return b"\x01\x04" + number(4, len(text)) + text


def written(shown, version):
    return b"\x01\x01" + number(8, shown) + b"\x01" + number(8, version)


def read(shown, version, value):
    return b"\x01\x02" + number(8, shown) + number(8, version) + value_bytes(value)


def refused(what, detail=0):
    return b"\x01\x03" + number(1, what) + number(8, detail)


class Played:
    """A mock server that sends one reply per request, or does what stands in its place.

    It serves each connection in a thread; what is asked and replied is one sequence.
    """

    def __init__(self, *replies):
        self.replies, self.asked, self.connections = list(replies), [], 0
        self.listener = socket.create_server(("127.0.0.1", 0))
        self.address = f"127.0.0.1:{self.listener.getsockname()[1]}"
        threading.Thread(target=self.accept, daemon=True).start()

    def __enter__(self):
        return self

    def __exit__(self, *_):
        self.listener.close()

    def accept(self):
        while True:
            try:
                made, _ = self.listener.accept()
            except OSError:
                return
            self.connections += 1
            made.settimeout(PATIENCE)
            threading.Thread(target=self.serve, args=(made,), daemon=True).start()

    def serve(self, made):
        with made, contextlib.suppress(OSError):
            self.answer(Connection.over(made))

    def answer(self, connection):
        while self.replies:
            self.asked.append(Asked(connection.receive()))
            reply = self.replies.pop(0)
            if reply is CLOSES:
                return
            if reply in (HALF, SLOW):
                self.send_slowly(connection, reply)
            elif reply is not SILENT:
                connection.send(reply)
        connection.receive()

    @staticmethod
    def send_slowly(connection, how):
        """Sends half of a reply, or all of it byte by byte."""
        frame = number(4, len(written(5, 1))) + written(5, 1)
        for byte in frame[:len(frame) // 2] if how is HALF else frame:
            connection.socket.sendall(bytes([byte]))
            time.sleep(SLOWNESS if how is SLOW else 0)


class Asked:
    """A decoded request: its kind, node and pass, and for an update its id and number."""

    def __init__(self, payload):
        unread = Unread(payload)
        self.payload, self.version, self.kind = payload, unread.number(1), unread.number(1)
        self.node = self.shown = self.id = self.number = None
        if self.kind in (wire.UPDATE, wire.READ):
            self.node, self.shown = unread.number(4), unread.number(8)
        if self.kind == wire.UPDATE:
            self.id, self.number = unread.number(8), unread.number(8)


def fault_of(call, *words, **more):
    """Returns the name of what a call raises; of a refusal its number and detail."""
    try:
        call(*words, **more)
    except Refused as it:
        return it.number, it.detail
    except (OSError, BadReply, Open, ValueError, OverflowError) as it:
        return type(it).__name__
    return None


def store_of(server, **more):
    """Returns a client of the mock server, with an id of its own."""
    return Client(server.address, **{"client": ID, "patience": PATIENCE, **more})


def updates_of(server):
    return [it for it in server.asked if it.kind == wire.UPDATE]


def kinds(server):
    return [it.kind for it in server.asked]


# The checks.

def numbers(checks):
    """Numbers are nanoseconds since 1970 and rise. With 8 of them due a ninth waits."""
    issued, now = Numbers(), time.time_ns()
    with issued.take(0) as (first,), issued.take(0, 2) as (second, third), issued.take(1) as (other,):
        checks.that(now <= first < second < third < now + PATIENCE * 10 ** 9,
                    f"numbers rise from now: {first - now}")
        checks.that(now <= other, "another chain has numbers of its own")
    with issued.take(0, above=third + 10 ** 15) as (far,):
        checks.same("a number above a given one", far, third + 10 ** 15 + 1)
    waited, due = [], contextlib.ExitStack()
    with due:
        due.enter_context(issued.take(2))
        for _ in range(7):
            with issued.take(2):
                pass
        ninth = threading.Thread(target=lambda: waited.append(issued.take(2).__enter__()), daemon=True)
        ninth.start()
        ninth.join(0.2)
        checks.same("a ninth number while the first is due", waited, [])
    ninth.join(PATIENCE)
    checks.same("it after that", len(waited), 1)


def lost_replies(checks):
    """An update whose reply is lost is retried with its number and id over a new connection."""
    said = [status(1, 2), CLOSES, status(1, 2), CLOSES, status(1, 2), written(7, 1), written(9, 2)]
    with Played(*said) as server, store_of(server) as store:
        checks.same("a write whose first two replies are lost", store.set("k", b"a"), Written(1))
        checks.same("the next one", store.set("k", b"b"), Written(2))
        asked = updates_of(server)
        checks.same("the number of the retries", len({it.number for it in asked[:3]}), 1)
        checks.that(asked[3].number > asked[0].number, "the next number is larger")
        checks.same("their ids", {it.id for it in asked}, {ID})
        checks.same("connections", server.connections, 3)


def passing_refusals(checks):
    """A passing refusal is retried with the same number: at the head that it names, or that the
    status tells."""
    for what in wire.PASSING:
        told = [] if what == wire.NOT_HEAD else [status(2, 1)]
        with Played(status(1, 2), refused(what, 2 if not told else 0), *told,
                    written(3, 1)) as server, store_of(server) as store:
            checks.same(f"a write that was refused {what}", store.set("k", b"a"), Written(1))
            checks.same(f"nodes after {what}", [it.node for it in updates_of(server)], [1, 2])
            checks.same(f"numbers after {what}", len({it.number for it in updates_of(server)}), 1)
    with Played(status(1, 2), refused(wire.STOPPED), status(2),
                read(3, 1, b"a")) as server, store_of(server) as store:
        checks.same("a read at a node that stopped", store.get("k"), Read(1, b"a"))
        checks.same("the node it was read at", server.asked[-1].node, 2)


def lasting_refusals(checks):
    """Any other refusal is raised at once."""
    for what in sorted(set(Refused.NAMES) - set(wire.PASSING)):
        with Played(status(1), refused(what)) as server, store_of(server) as store:
            checks.same(f"a write that is refused {what}", fault_of(store.set, "k", b"a"), (what, 0))
            checks.same(f"requests before {what}", kinds(server), [wire.STATUS, wire.UPDATE])
    with Played(status(1)) as server, store_of(server) as store:
        checks.same("a chain that there is not", fault_of(store.set, "k", b"a", chain=1), (7, 0))
        checks.same("a name that no chain has", fault_of(store.set, "k", b"a", chain="b"), (7, 0))
        checks.same("requests before that", kinds(server), [wire.STATUS])


def bad_words(checks):
    """Arguments without an encoding are refused before anything is sent."""
    with Played() as server, store_of(server) as store:
        for what, call in {"no key": lambda: store.get(""), "a long key": lambda: store.set("k" * 129, b""),
                           "a long value": lambda: store.set("k", b"v" * 4097),
                           "a negative number": lambda: store.add("k", -1),
                           "a large version": lambda: store.cas("k", 2 ** 64, b""),
                           "no request": lambda: store.many([]),
                           "nine requests": lambda: store.many([store.asks_set("k", b"")] * 9)}.items():
            checks.that(fault_of(call) in ("ValueError", "OverflowError"), what)
        checks.same("what was sent", server.asked, [])
        for chain in 0, "b":
            checks.same(f"no item in chain {chain}", fault_of(store.txn, chain=chain), "ValueError")
            checks.same(f"number 0 in chain {chain}", fault_of(store.set, "k", b"a", chain=chain, number=0),
                        "ValueError")
        for what, lists in {"a key twice": ([("k", 1), (b"k", 2)], [], []), "two reads": ([], ["k", "k"], []),
                            "two writes": ([], [], [("k", b"a"), ("k", b"b")]),
                            "17 reads": ([], [str(it) for it in range(17)], [])}.items():
            checks.same(what, fault_of(store.txn, *lists), "ValueError")
            checks.same(f"{what}, for many", fault_of(store.asks_txn, *lists, chain="b"), "ValueError")
        checks.same("number 0 for many", fault_of(store.asks_set, "k", b"a", number=0), "ValueError")
        for what, words, more in (("value", ("k", "text"), {"chain": "b"}),
                                  ("node", ("k", b"a"), {"node": "3"})):
            try:
                told = store.set(*words, **more)
            except TypeError as fault:
                told = str(fault)
            checks.that("and not" in str(told), f"a text as {what}: {told}")
        for what, more in ("mode", {"mode": "strong"}), ("number", {"node": 2 ** 33}):
            try:
                told = store.get("k", **{"node": 1, **more})
            except (TypeError, OverflowError) as fault:
                told = str(fault)
            checks.that(what in str(told) and "and not" in str(told), f"a wrong {what}: {told}")
        checks.same("what was sent after these", server.asked, [])
    for address in "nowhere", "127.0.0.1:0", ":7000", "127.0.0.1:99999":
        checks.same(f"the address {address}", fault_of(Client, address, client=ID), "ValueError")


def named_nodes(checks):
    """A call that names its node is sent there once. What may have been done can be asked again."""
    with Played(refused(wire.NOT_HEAD, 1), CLOSES, written(2, 1)) as server, store_of(server) as store:
        checks.same("a write at the tail", fault_of(store.set, "k", b"a", node=2), (9, 1))
        try:
            store.set("k", b"a", node=1)
            checks.that(False, "a write whose reply is lost raises Open")
        except Open as fault:
            checks.same("the id it tells", fault.client, ID)
            checks.same("it, once more with its number",
                        store.set("k", b"a", node=1, number=fault.numbers[0]), Written(1))
        asked = updates_of(server)
        checks.same("nodes", [it.node for it in asked], [2, 1, 1])
        checks.that(asked[0].number != asked[1].number == asked[2].number, "numbers")


def tries(checks):
    """After the last try Open is raised with the number, or the refusal where nothing can have been done."""
    lost = [it for _ in range(3) for it in (CLOSES, status(1))][:-1]
    with Played(status(1), *lost, written(5, 1)) as server, store_of(server, tries=3) as store:
        checks.same("a write whose replies are all lost", fault_of(store.set, "k", b"a"), "Open")
        checks.same("how often it was asked", len(updates_of(server)), 3)
        checks.same("their numbers", len({it.number for it in updates_of(server)}), 1)
    with Played(status(1), refused(12), status(1), refused(12)) as server, store_of(server, tries=2) as store:
        checks.same("a write that waits too long", fault_of(store.set, "k", b"a"), (12, 0))
    with Played(status(1), refused(14), status(1), refused(12)) as server, store_of(server, tries=2) as store:
        checks.same("a write that may be done and waits", fault_of(store.set, "k", b"a"), "Open")
    with Played(CLOSES, CLOSES) as server, store_of(server, tries=2) as store:
        checks.same("a write before which the status is lost", fault_of(store.set, "k", b"a"),
                    "ConnectionError")
    with Client("127.0.0.1:1", client=ID, tries=2) as store:
        checks.same("no server", fault_of(store.set, "k", b"a"), "NoConnection")
        checks.same("no server for a read", fault_of(store.get, "k"), "NoConnection")


def given_up(server, call, *words, **more):
    """Returns the name of what a call of a client with short limits raises, its seconds, and the
    numbers of its requests that are none for the status."""
    with server, store_of(server, patience=A_TRY, deadline=ALL_TRIES) as store:
        began = time.monotonic()
        fault = fault_of(getattr(store, call), *words, **more)
        return (fault, time.monotonic() - began,
                [it.number for it in server.asked if it.kind != wire.STATUS])


def deadlines(checks):
    """A try ends after its seconds, and a request after its own, whatever the server does."""
    cases = [(what, *call) for what in (SILENT, HALF, SLOW)
             for call in (("set", ("k", b"a"), "Open"), ("get", ("k",), "TimeoutError"))]
    with ThreadPoolExecutor(len(cases) + 1) as pool:
        ran = [pool.submit(given_up, Played(*[status(1), what] * 9), call, *words)
               for what, call, words, _ in cases]
        once = pool.submit(given_up, Played(SILENT), "set", "k", b"a", node=1)
        for (what, call, _, wanted), it in zip(cases, ran):
            fault, seconds, numbers = it.result()
            checks.same(f"a {call} at a server that {what}", fault, wanted)
            checks.that(2 * A_TRY < seconds < 3 * ALL_TRIES, f"its seconds: {seconds:.2f}")
            checks.that(len(numbers) >= 2 and len(set(numbers)) == 1,
                        f"its tries have one number: {numbers}")
        fault, seconds, numbers = once.result()
        checks.same("a write at a named node that says nothing", (fault, len(numbers)), ("Open", 1))
        checks.that(A_TRY <= seconds < 2 * ALL_TRIES, f"its seconds: {seconds:.2f}")
    with Played(SILENT) as server, store_of(server, patience=A_TRY, deadline=ALL_TRIES,
                                            connections=1) as store:
        with store.pool.connection(Deadline(PATIENCE)):
            checks.same("a read for which no connection is free", fault_of(store.get, "k"), "NoConnection")
        checks.same("what is sent then", server.asked, [])
    with Client("127.0.0.1:1", client=ID) as store:
        checks.same("the seconds of a try and of a request", (store.patience, store.deadline), (10, 20))


def passes(checks):
    """The largest pass received is sent; a status and a refusal have none."""
    said = [status(1), written(50, 1), read(40, 1, b"a"), refused(15), status(1), written(60, 2),
            read(61, 2, b"b")]
    with Played(*said) as server, store_of(server, shown=7) as store:
        store.set("k", b"a")
        store.get("k")
        fault_of(store.set, "k", b"a")
        store.members()
        store.set("k", b"b")
        store.get("k", node=1)
        checks.same("the passes that are sent", [it.shown for it in server.asked if it.shown is not None],
                    [7, 50, 50, 50, 60])
        checks.same("the client's pass", store.shown, 61)


def bad_replies(checks):
    """A bad reply is raised; the connection is closed, and the next call opens another."""
    bad = {"an empty payload": b"", "a reply that is cut": read(1, 1, b"a")[:-1],
           "one that goes on": read(1, 1, b"") + b"\0",
           "an unknown version": b"\x03" + read(1, 1, b"")[1:], "an unknown kind": b"\x01\x09",
           "an unknown tag": b"\x01\x01" + bytes(8) + b"\x0a",
           "another kind of reply": written(1, 1), "two replies to one request": b"\x02\x05\x02"
           + 2 * refused(15)[1:]}
    for what, reply in bad.items():
        with Played(status(1), reply, read(2, 1, b"b")) as server, store_of(server) as store:
            checks.same(what, fault_of(store.get, "k"), "BadReply")
            checks.same(f"a read after {what}", store.get("k"), Read(1, b"b"))
    with Played(b"\x01\x04" + number(4, 2) + b"{}") as server, store_of(server) as store:
        checks.same("a status without chains", fault_of(store.members), "BadReply")
    with Played(status(1), written(1, 1)[:-1]) as server, store_of(server) as store:
        checks.same("a cut reply to an update", fault_of(store.set, "k", b"a"), "Open")


def several(checks):
    """Up to eight requests in a frame get as many replies, in order, or refusals; a lost frame is
    sent again as it was."""
    told = b"\x02\x05\x03" + written(8, 1)[1:] + refused(23)[1:] + read(9, 1, b"a")[1:]
    with Played(status(1), CLOSES, status(1), told, b"\x02\x05\x01" + written(9, 1)[1:],
                refused(16)) as server, store_of(server) as store:
        asks = [store.asks_set("k", b"a"), store.asks_get("k", node=9), store.asks_get("k")]
        first, second, third = store.many(asks)
        checks.same("three replies", (first, (second.number, second.detail), third),
                    (Written(1), (23, 0), Read(1, b"a")))
        checks.same("the pass after them", store.shown, 9)
        checks.same("their payload", server.asked[1].payload[:3], bytes([2, wire.MANY, 3]))
        checks.same("the payload that is sent again", server.asked[3].payload, server.asked[1].payload)
        checks.same("another count of replies", fault_of(store.many, asks), "Open")
        checks.same("one refusal of all", fault_of(store.many, asks), (16, 0))


def updates_together(checks):
    """Each kind of update in one frame, at its node and with its number; a counter's number."""
    told = b"\x02\x05\x04" + b"".join(written(8, it)[1:] for it in range(1, 5))
    with Played(told) as server, store_of(server) as store:
        asks = [store.asks_set("k", b"a", node=2, number=5), store.asks_cas("k", 1, b"b", node=2, number=6),
                store.asks_add("n", 7, node=2, number=7),
                store.asks_txn([("k", 2)], ["n"], [("k", b"c")], node=2, number=8)]
        checks.same("their replies", store.many(asks), [Written(it) for it in range(1, 5)])
        commands = (wire.put(0, "k", b"a"), wire.test_and_set(0, "k", 1, b"b"), wire.increment(0, "n", 7),
                    wire.mini(0, [("k", 2)], ["n"], [("k", b"c")]))
        checks.same("what was sent", server.asked[0].payload, wire.many(
            [wire.update_request(2, 0, ID, at, it) for at, it in enumerate(commands, 5)]))
    checks.same("counters", (Read(3, number(8, 258)).number, Read(0, b"").number), (258, 0))
    checks.same("a value that is no counter", fault_of(lambda: Read(1, b"a").number), "ValueError")
    checks.same("a refusal in words", str(Refused(9, 1)), "9 NotHead 1: updates go to the head, node 1")


def stale_numbers(checks):
    """A number that is given may be stale. A new one that is stale at its first try is exchanged
    for a larger one, seven times."""
    stale = b"\x01\x01" + number(8, 4) + b"\x09" + number(8, 2 ** 62)
    with Played(status(1), stale, stale, written(5, 1), CLOSES, status(1),
                stale) as server, store_of(server) as store:
        checks.same("a given number", store.set("k", b"a", number=3), Stale(2 ** 62))
        checks.same("a new one", store.set("k", b"a"), Written(1))
        checks.same("the number after it", updates_of(server)[-1].number, 2 ** 62 + 1)
        checks.same("a stale one whose first reply was lost", fault_of(store.set, "k", b"a"), "Open")
    with Played(status(1), *[stale] * 9) as server, store_of(server) as store:
        checks.same("numbers that are all stale", store.set("k", b"a"), Stale(2 ** 62))
        checks.same("how many they are", len({it.number for it in updates_of(server)}), 8)


def threads(checks):
    """Threads share a client: each call has a connection of its own, and a number of its own."""
    with Played(status(1), *[written(9, 1)] * 40) as server, store_of(server, connections=4) as store:
        store.members()
        told = []
        made = [threading.Thread(target=lambda: told.extend(store.set("k", b"a") for _ in range(10)),
                                 daemon=True) for _ in range(4)]
        for it in made:
            it.start()
        for it in made:
            it.join(PATIENCE)
        checks.same("40 writes of four threads", told, [Written(1)] * 40)
        checks.same("their numbers", len({it.number for it in updates_of(server)}), 40)
        checks.that(server.connections <= 4, f"connections: {server.connections}")


def members(checks):
    """The chains, each with its members, by the status; calls take a chain's name."""
    with Played(status(3, 1), written(1, 1)) as server, store_of(server) as store:
        checks.same("members", store.members(), [Chain(0, "a", 1, [3, 1])])
        checks.same("a write to the chain by name", store.set("k", b"a", chain="a"), Written(1))
        checks.same("where it went", server.asked[-1].node, 3)


MISMATCH = b"\x01\x01" + number(8, 5) + b"\x02" + bytes(8)


def health(checks):
    """Health asks a read at each member, and then a TestAndSet that writes nothing at the head."""
    with Played(status(2, 1), read(2, 0, b""), read(3, 0, b""),
                MISMATCH) as server, store_of(server) as store:
        seen = []
        found = store.health(seen=lambda *it: seen.append(it))
        checks.same("the nodes that are asked", [it.node for it in server.asked[1:]], [2, 1, 2])
        checks.that(found.update > 0 and list(found.reads) == [2, 1], f"seconds: {found}")
        checks.same("what is told at once", seen, list(found.reads.items()))
        checks.that(server.asked[3].payload.endswith(b"\xff" * 8 + bytes(2)),
                    "the version that no object has")
    with Played(status(1, 2), refused(wire.NOT_READY), read(3, 0, b""), MISMATCH) as server:
        with store_of(server) as store:
            found = store.health()
            checks.same("a member that is not ready", (list(found.failed), list(found.reads)), ([1], [2]))
            checks.that(found.update and not found.is_lost(), f"the update beside it: {found}")
    with Played(status(1, 2), read(3, 0, b""), refused(wire.STOPPED)) as server, store_of(server) as store:
        found = store.health()
        checks.same("a stopped member", (found.stopped(), found.update, found.is_lost()), ([2], None, False))
        checks.same("what is asked beside it", kinds(server), [wire.STATUS, wire.READ, wire.READ])
    with Played(status(1), read(3, 0, b""), written(5, 1)) as server, store_of(server) as store:
        found = store.health()
        checks.same("an update that fails", (found.update, type(found.fault)), (None, BadReply))
    with Played(status(1), CLOSES) as server, store_of(server) as store:
        checks.same("a server that is gone", fault_of(store.health), "ConnectionError")


def names_first(checks):
    """A text names a chain by its name or, if none has it, by its number."""
    chains = [{"epoch": 1, "members": [1], "name": "1"}, {"epoch": 1, "members": [2], "name": "0"},
              {"epoch": 1, "members": [3], "name": "c"}]
    text = json.dumps({"chains": chains}).encode()
    with Played(b"\x01\x04" + number(4, len(text)) + text) as server, store_of(server) as store:
        checks.same("chains by texts", [store.chain_id(it) for it in ("1", "0", "2", "c")], [0, 1, 2, 2])
        checks.same("chains by numbers", [store.chain_id(it) for it in (1, 0, 2)], [1, 0, 2])
        checks.same("no chain", [fault_of(store.chain_id, it) for it in ("3", "02")], [(7, 0)] * 2)


def defaults(checks):
    """The address and the id come from the environment; else the id is drawn once and kept."""
    with tempfile.TemporaryDirectory() as room, environment(XDG_STATE_HOME=room, CRAQ_CLIENT=None,
                                                            CRAQ_CONNECT=None):
        checks.same("the default address", identity.default_address(), "127.0.0.1:7000")
        drawn = identity.default_id()
        checks.same("the id that is kept", [identity.default_id() for _ in range(2)], [drawn] * 2)
        checks.same("the client's id", Client().id, drawn)
        with environment(CRAQ_CLIENT="12", CRAQ_CONNECT="[::1]:9"):
            checks.same("the id that is given", (Client().id, Client(client=13).id), (12, 13))
            checks.same("the address that is given", identity.default_address(), "[::1]:9")
        for text in "x", "-1", str(2 ** 64), "1 2":
            with environment(CRAQ_CLIENT=text):
                checks.same(f"an id that is none: {text}", fault_of(Client), "ValueError")
        with open(identity.state_file(), "w", encoding="ascii") as it:
            it.write("nothing\n")
        checks.same("a file with no id", fault_of(identity.default_id), "ValueError")
    with environment(XDG_STATE_HOME="/proc/nowhere", CRAQ_CLIENT=None):
        checks.that(0 <= identity.default_id() < 2 ** 64, "a folder that cannot be made: the id serves once")


@contextlib.contextmanager
def environment(**changes):
    """Sets variables of the environment for a block; None removes one."""
    before = {it: os.environ.get(it) for it in changes}

    def change(to):
        for name, value in to.items():
            os.environ.pop(name, None)
            if value is not None:
                os.environ[name] = value

    change(changes)
    try:
        yield
    finally:
        change(before)


def ran(server, *words, given=b""):
    """Returns the command's exit status and its output."""
    out, err = io.TextIOWrapper(io.BytesIO(), encoding="utf-8"), io.StringIO()
    before, sys.stdin = sys.stdin, io.TextIOWrapper(io.BytesIO(given))
    try:
        with (contextlib.redirect_stdout(out), contextlib.redirect_stderr(err),
              environment(CRAQ_CLIENT="7")):
            ended = command.main(["--connect", server.address, *words])
            out.flush()
    finally:
        sys.stdin = before
    return ended, out.buffer.getvalue(), err.getvalue()


DONE = (b"\x01\x01" + number(8, 5) + b"\x07\x02" + number(8, 1) + value_bytes(b"a") + number(8, 0)
        + value_bytes(b""))
FAILED = b"\x01\x01" + number(8, 5) + b"\x08\x01"
# The words, the replies to them, and the status and the output.
COMMANDS = [
    (["set", "k", "blue"], [written(5, 1)], 0, b"written 1\n"),
    (["set", "k", "blue", "--print-pass"], [written(5, 1)], 0, b"written 1\npass 5\n"),
    (["append", "k", "x"], [written(5, 2)], 0, b"written 2\n"),
    (["prepend", "k", "x"], [b"\x01\x01" + number(8, 5) + b"\x03"], 5, b"toolong\n"),
    (["cas", "k", "3", "x"], [b"\x01\x01" + number(8, 5) + b"\x02" + number(8, 4)], 5, b"mismatch 4\n"),
    (["add", "k"], [b"\x01\x01" + number(8, 5) + b"\x04"], 5, b"notanumber\n"),
    (["sub", "k", "7"], [written(5, 2)], 0, b"written 2\n"),
    (["txn", "c:k:1", "r:k", "r:l", "w:k:x:y"], [DONE], 0, b"done\n1 a\n0 \n"),
    (["txn", "c:k:1", "c:l:2"], [FAILED], 5, b"comparefailed 1\n"),
    (["get", "k"], [read(5, 1, b"\0\xff")], 0, b"\0\xff"),
    (["get", "k", "--hex"], [read(5, 1, b"\0\xff")], 0, b"00ff\n"),
    (["get", "k", "--decimal"], [read(5, 1, number(8, 258))], 0, b"258\n"),
    (["get", "k", "--mode", "eventual"], [read(5, 0, b"")], 6, b""),
    (["get", "k", "--mode=bounded:2"], [read(5, 2, b"")], 0, b""),
    (["--node", "1", "--pass", "9", "get", "--", "--k"], [read(5, 1, b"blue")], 0, b"blue"),
    (["get", "k", "--json"], [read(5, 1, b"blue")], 0,
     b'{"reply": "read", "version": 1, "value": "blue", "pass": 5}\n'),
    (["get", "k", "--json"], [read(5, 1, b"\xff")], 0,
     b'{"reply": "read", "version": 1, "value_hex": "ff", "pass": 5}\n'),
    (["txn", "r:k", "r:l", "--json"], [DONE], 0,
     b'{"reply": "done", "reads": [{"version": 1, "value": "a"}, {"version": 0, "value": ""}], "pass": 5}\n'),
    (["members"], [], 0, b"a: 1 2\n"),
    (["members", "--json"], [], 0,
     b'{"chains": [{"id": 0, "name": "a", "epoch": 1, "members": [1, 2]}], "pass": 0}\n'),
    (["get", "k", "--json", "--hex"], [read(5, 1, b"blue")], 0,
     b'{"reply": "read", "version": 1, "value_hex": "626c7565", "pass": 5}\n'),
    (["get", "k", "--json", "--decimal"], [read(5, 1, number(8, 258))], 0,
     b'{"reply": "read", "version": 1, "number": 258, "pass": 5}\n'),
    (["health"], [read(5, 0, b""), read(5, 0, b""), MISMATCH], 0,
     b"node 1 N ms\nnode 2 N ms\nupdate N ms\n"),
    (["health"], [read(5, 0, b""), refused(wire.STOPPED)], 3,
     b"node 1 N ms\nnode 2 stopped\nupdate not tried\n"),
    (["health"], [refused(wire.STOPPED), refused(wire.NOT_READY)], 3,
     b"node 1 stopped\nnode 2 refused 10 NotReady: the node is not ready yet\nupdate not tried\n"),
    (["health", "--json"], [read(5, 0, b""), refused(wire.STOPPED)], 3,
     b'{"update_seconds": null, "read_seconds": {"1": N}, "failed": {"2": "stopped"}, "pass": 5}\n'),
    (["get", "k", "--chain", "b"], [], 3, b""),
    (["add", "k", "2"], [refused(15)], 3, b""),
    (["get", "k"], [b"\x01\x09"], 4, b""),
]
WRONG = (["fetch", "k"], ["set", "k"], ["set", "k", "a", "b"], ["get", "k", "--mode", "soon"],
         ["add", "k", "x"], ["add", "k", str(2 ** 64)],
         ["--node"], ["--node", "x", "get", "k"], ["set", "k", "0g", "--hex"], ["get", "k", "--some"],
         ["set", "", "a"], ["set", "k" * 129, "a"],
         ["set", "k", "v" * 4097], ["txn"], ["txn", "x:k"], ["txn", "r:k:1"], ["txn", "r:k", "r:k"],
         ["cas", "k", "a"], ["set", "k", "a", "--number", "0"], ["members", "extra"],
         ["set", "k", "0G", "--hex"], ["set", "k", "0A", "--hex"],
         ["set", "k", "x", "--decimal"], ["set", "k", "05", "--decimal"],
         ["set", "k", str(2 ** 64), "--decimal"], ["txn", "w:k:-", "--decimal"],
         ["set", "k", "5", "--hex", "--decimal"], ["get", "k", "--json", "--json"],
         ["get", "k", "--node", "1", "--node=1"], ["get", "k", "--chain", "--json"], ["set", "k", "-v"],
         *([verb, *words, *it.split()] for verb, words, options in (
             ("set", ["k", "v"], ["--mode eventual"]), ("txn", ["r:k"], ["--mode strong"]),
             ("add", ["k"], ["--mode strong", "--hex", "--decimal"]), ("sub", ["k"], ["--hex"]),
             ("get", ["k"], ["--client 7", "--number 7"]),
             ("members", [], ["--node 1", "--chain a", "--mode strong", "--client 7", "--number 7", "--hex",
                              "--decimal", "--print-pass"]),
             ("health", [], ["--node 1", "--mode strong", "--number 7", "--hex", "--decimal",
                             "--print-pass"])) for it in options))
# Values by their forms: the words of `set k`, what is entered, and the bytes that are written.
VALUES = [
    (["-"], b"a\nb\0", b"a\nb\0"), (["00ff", "--hex"], b"", b"\0\xff"), (["-", "--hex"], b"00ff", b"\0\xff"),
    (["5", "--decimal"], b"", number(8, 5)), (["-", "--decimal"], b"258", number(8, 258)),
    (["--", "-v"], b"", b"-v"),
]
# Standard error of `health` at a chain with stopped members: it goes on, or is lost.
ADVICE = "jilsdau: remove the stopped node a/2: updates wait until then\n"
LOST = "jilsdau: no ready member of chain a runs, and its data is lost: start the server again\n"


def commands(checks):
    """The command prints the reply, its exit status tells the kind of reply, and wrong words send nothing."""
    for words, replies, status_wanted, wanted in COMMANDS:
        named = words[:2] == ["--node", "1"]
        with Played(*([] if named else [status(1, 2)]), *replies) as server:
            ended, out, err = ran(server, *words)
            if "health" in words:
                out = re.sub(rb"[0-9]+\.[0-9]+(e-[0-9]+)?", b"N", out)
            checks.same(" ".join(words), (ended, out), (status_wanted, wanted))
            checks.same(f"whether {' '.join(words)} tells a fault", bool(err), status_wanted in (3, 4, 6))
    for words in WRONG:
        with Played() as server:
            ended, out, err = ran(server, *words)
            checks.same(f"{' '.join(words)[:40]}", (ended, out, server.connections), (2, b"", 0))
            checks.that(err.startswith("jilsdau: ") and "--help" in err,
                        f"what it tells of {words}: {err[:100]}")
    for words, given, wanted in VALUES:
        with Played(status(1), written(5, 1)) as server:
            checks.same(f"a value {words} of {given}", ran(server, "set", "k", *words, given=given)[:2],
                        (0, b"written 1\n"))
            checks.that(server.asked[1].payload.endswith(value_bytes(wanted)), f"what {words} sends")
    with Played(status(1), written(5, 1)) as server:
        ran(server, "txn", "w:k:7", "w:l:8", "--decimal")
        checks.that(server.asked[1].payload.endswith(value_bytes(number(8, 8))), "numbers of a transaction")
    with Played(status(1), written(5, 1)) as server:
        ran(server, "txn", "w:k:-", given=b"v")
        checks.that(server.asked[1].payload.endswith(value_bytes(b"-")), "a - in a transaction is itself")
    for replies, wanted in ([read(5, 0, b""), refused(wire.STOPPED)], ADVICE), (
            [refused(wire.STOPPED), refused(wire.NOT_READY)], LOST):
        with Played(status(1, 2), *replies) as server:
            checks.same("what health tells of stopped members", ran(server, "health")[2], wanted)
    told = command.__doc__
    checks.same("verbs of the help", sorted(set(re.findall(r"^  ([a-z]+) ", told, re.M))),
                sorted(command.VERBS))
    missing = [it for it in (*command.VALUED, *command.FLAGS) if it not in told]
    checks.same("options that the help lacks", missing, [])


def left_open(checks):
    """An update that may have been done is told with the command that asks it again, and no other is."""
    words = ["append", "k", "a b"]
    for node, replies in (([], [refused(wire.MEMORY)] * TRIES), (["--node", "1"], [refused(wire.STOPPED)]),
                          (["--node", "1"], [CLOSES])):
        every = [it for one in replies for it in (one, status(1))][:-1]
        with Played(*([] if node else [status(1)]), *every) as server:
            ended, _, err = ran(server, *node, *words)
            found = {(it.id, it.number) for it in updates_of(server)}
            checks.same("numbers of an update that is left open", len(found), 1)
            again = (f"/run.py --client 7 --number {found.pop()[1]} --connect {server.address} "
                     f"{' '.join([*node, ''])}append k 'a b'\n")
            checks.that(again in err, f"an update that is left open: {err!r}, wanted {again!r}")
            checks.same("its status", ended, 4 if replies == [CLOSES] else 3)
    for words, replies in (["add", "k", "2"], [refused(15)]), (["--node", "1", "get", "k"], [CLOSES]):
        with Played(*([] if "--node" in words else [status(1)]), *replies) as server:
            checks.that("may have been done" not in ran(server, *words)[2], f"{words} is not left open")


def asked_again(checks):
    """The command that is printed can be run as it is, and asks the update again with its number."""
    with Played(CLOSES, written(5, 1), CLOSES) as server:
        words = [sys.executable, "-B", repository.path("clients/python/jilsdau"), "--connect", server.address,
                 "--node", "1", "set", "k", "-"]
        ran_once = subprocess.run(words, input=b"a b", capture_output=True, timeout=PATIENCE)
        again = ran_once.stderr.decode().splitlines()[-1].strip()
        checks.that(b"again with the same standard input," in ran_once.stderr, f"it tells: {ran_once.stderr}")
        ran_again = subprocess.run(["bash", "-c", again], input=b"a b", capture_output=True, timeout=PATIENCE)
        checks.same(f"{again}: its end", (ran_again.returncode, ran_again.stdout), (0, b"written 1\n"))
        asked = updates_of(server)
        checks.that(len(asked) == 2 and asked[0].payload == asked[1].payload, "it asks the same")


def closed_streams(checks):
    """Closed and broken standard streams: an exit status, no traceback, and no byte of them to the server."""
    program = f"{sys.executable} -B {repository.path('clients/python/jilsdau')} --client 7"
    for words, replies, wanted in (("set k v >&-", [written(5, 1)], 1), ("set k v 2>&-", [written(5, 1)], 0),
                                   ("set k v <&-", [written(5, 1)], 0), ("set k - <&-", [], 1),
                                   ("set k v <&- >&- 2>&-", [written(5, 1)], 1), ("help >&-", None, 1),
                                   ("set k v | true", [written(5, 1)], 1), ("help | true", None, 1)):
        with Played(*([status(1), *replies] if replies else [])) as server:
            line = f"set -o pipefail; sleep 0 | {program} --connect {server.address} {words}"
            if replies is None:
                line = f"set -o pipefail; python3 -B {repository.path('clients/python/jilsdau')} {words}"
            if "| true" in line:
                line = line.replace("| true", "| (exec <&-; sleep 1)")
            ended = subprocess.run(["bash", "-c", line], capture_output=True, timeout=PATIENCE)
            checks.same(f"{words}: its end", ended.returncode, wanted)
            checks.that(b"Traceback" not in ended.stderr, f"{words}: {ended.stderr}")
            checks.same(f"{words}: what was asked", kinds(server),
                        [wire.STATUS, wire.UPDATE] if replies else [])


PARTS = (numbers, lost_replies, passing_refusals, lasting_refusals, bad_words, named_nodes, tries, deadlines,
         passes, bad_replies, several, updates_together, stale_numbers,
         threads, members, health, names_first, defaults, commands, left_open, asked_again, closed_streams)


def tried(checks):
    """Runs all parts."""
    socket.setdefaulttimeout(PATIENCE)
    client.PAUSE = 0.001
    for part in PARTS:
        checks.part(part.__doc__, part)
