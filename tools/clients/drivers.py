"""Makes the calls of clients/cases.json with each client: a line of calls gives a line of results,
and the pass."""
import json
import os
import re
import subprocess

from jilsdau import BadReply, Client, Open, Read, Refused, wire

from tools import repository
from tools.clients.python_client import PATIENCE

FLAGS = ["-std=c99", "-Wall", "-Wextra", "-pedantic", "-Werror"]
WORDS = {"put": "set", "tas": "cas", "append": "append", "prepend": "prepend", "inc": "add", "dec": "sub"}


def value_of(word):
    """Returns the bytes that a word spells: its characters, 0x and digits, or N*C."""
    if word.startswith("0x"):
        return bytes.fromhex(word[2:])
    count, times, it = word.partition("*")
    return int(count) * it.encode() if times else word.encode()


def mode_of(word):
    if word.startswith("bounded:"):
        return wire.bounded(int(word[8:]))
    return {"strong": wire.STRONG, "eventual": wire.EVENTUAL}[word]


def items_of(words):
    """Returns the three lists of a transaction."""
    lists = {"c": [], "r": [], "w": []}
    for word in words:
        kind, key, *rest = word.split(":")
        lists[kind].append({"c": lambda: (key, int(rest[0])), "r": lambda: key,
                            "w": lambda: (key, value_of(rest[0]))}[kind]())
    return lists["c"], lists["r"], lists["w"]


def command_of(name, chain, words):
    """Encodes a command, for calls in one frame."""
    if name == "mini":
        return wire.mini(chain, *items_of(words))
    if name in ("inc", "dec"):
        return {"inc": wire.increment, "dec": wire.decrement}[name](chain, words[0], int(words[1]))
    if name == "tas":
        return wire.test_and_set(chain, words[0], int(words[1]), value_of(words[2]))
    return getattr(wire, name)(chain, words[0], value_of(words[1]))


def text_of(told):
    """Returns a reply as the cases have it."""
    if isinstance(told, Read):
        return f"read {told.version} 0x{told.value.hex()}"
    if isinstance(told, Refused):
        return f"refused {told.number} {told.detail}"
    if isinstance(told, wire.Done):
        return " ".join(["done", *(f"{it.version}:0x{it.value.hex()}" for it in told.reads)])
    if isinstance(told, list):
        chains = [{"epoch": it.epoch, "members": it.members, "name": it.name} for it in told]
        return "status " + json.dumps({"chains": chains}, separators=(",", ":"))
    return " ".join([type(told).__name__.lower(), *map(str, vars(told).values())])


class Python:
    """The client of clients/python. A call that names its node is sent there once, so each call is
    one exchange."""

    def __init__(self, address, id, shown):
        self.store = Client(address, client=id, shown=shown, tries=1, patience=PATIENCE)

    def asks(self, line):
        calls = [it.split() for it in line.split(" ; ")]
        try:
            told = [self.asks_one(*calls[0])] if len(calls) == 1 else self.asks_many(calls)
        except Refused as refused:
            told = [refused] * len(calls)
        except (OSError, BadReply, Open) as fault:
            fault = fault.fault if isinstance(fault, Open) else fault
            return "badreply" if isinstance(fault, BadReply) else "lost", self.store.shown
        return " ; ".join(map(text_of, told)), self.store.shown

    def asks_one(self, kind, *words):
        if kind == "status":
            return self.store.members()
        if kind == "read":
            node, mode, chain, key = words
            return self.store.get(key, mode=mode_of(mode), chain=int(chain), node=int(node))
        node, number, name, chain, *rest = words
        where = {"chain": int(chain), "node": int(node), "number": int(number)}
        if name == "mini":
            return self.store.txn(*items_of(rest), **where)
        if name in ("inc", "dec"):
            return getattr(self.store, WORDS[name])(rest[0], int(rest[1]), **where)
        versions = [int(rest[1])] if name == "tas" else []
        return getattr(self.store, WORDS[name])(rest[0], *versions, value_of(rest[-1]), **where)

    def asks_many(self, calls):
        asked = []
        for kind, node, *words in calls:
            if kind == "read":
                mode, chain, key = words
                asked.append(self.store.asks_get(key, mode=mode_of(mode), chain=int(chain), node=int(node)))
            else:
                number, name, chain, *rest = words
                command = command_of(name, int(chain), rest)
                asked.append(self.store.asks_update(int(chain), command, node=int(node), number=int(number)))
        return self.store.many(asked)

    def close(self):
        self.store.close()


class C:
    """The client of clients/c, as a process that reads calls and prints results."""

    program = None

    def __init__(self, address, id, shown):
        host, _, port = address.rpartition(":")
        words = [self.program, host, port, str(id), str(shown)]
        self.process = subprocess.Popen(words, stdin=subprocess.PIPE, stdout=subprocess.PIPE,
                                        stderr=subprocess.PIPE, text=True)

    @classmethod
    def build(cls, compiler, folder):
        """Compiles the driver and the example, with warnings as errors; returns what the compiler says."""
        said = ""
        for source in repository.path("tools/clients/driver.c"), repository.path("clients/c/example.c"):
            made = os.path.join(folder, os.path.basename(source)[:-2])
            ran = subprocess.run([compiler, *FLAGS, "-o", made, source], capture_output=True, text=True)
            said += ran.stdout + ran.stderr
        cls.program = os.path.join(folder, "driver")
        return said

    def asks(self, line):
        try:
            self.process.stdin.write(line + "\n")
            self.process.stdin.flush()
            told = self.process.stdout.readline()
        except OSError:
            told = ""
        found = re.fullmatch(r"(.*) \| ([0-9]+)\n", told)
        return (found[1], int(found[2])) if found else (f"the driver ended: {self.process.stderr.read()}",
                                                        None)

    def close(self):
        self.process.communicate()
