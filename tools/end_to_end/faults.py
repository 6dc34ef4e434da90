"""craqd: each fault of its command line, its file, its text, memory and its address, in this order."""
import os
import re
import tempfile

from tools.end_to_end import running


def table(name="a", nodes="[1]"):
    return f'[[chain]]\nname = "{name}"\nnodes = {nodes}\n'


CHAINS = "expected tables [[chain]]"
NAME = "chain 0, from 0: expected a name of 1 to 32 letters, digits, _ and -"
NODES = "chain 0, from 0: expected nodes from 1 to 4294967295"

# Texts that are no plan, each with the rule that it breaks as the line behind `plan refused` has it.
NO_PLAN = {
    "nothing": ("", CHAINS),
    "no TOML": (table() + "[[chain]", "line 4: unclosed array table, expected `]]`"),
    "bytes that are no text": (b"\xff" + table().encode(), "the file is not text in UTF-8"),
    "another key": (table() + "[other]\n", f'{CHAINS} alone, and found the key "other"'),
    "a key before": ("limit = 1\n" + table(), f'{CHAINS} alone, and found the key "limit"'),
    "another array": (table().replace("chain", "chains"), f'{CHAINS} alone, and found the key "chains"'),
    "a table for the array": ('[chain]\nname = "a"\nnodes = [1]\n', CHAINS),
    "a number for the array": ("chain = 1\n", CHAINS),
    "no chain": ("chain = []\n", "expected 1 to 64 chains, and found 0"),
    "65 chains": ("".join(table(f"c{i}") for i in range(65)), "expected 1 to 64 chains, and found 65"),
    "a number for a chain": ("chain = [1]\n", "chain 0, from 0: expected a table with a name and nodes"),
    "a chain without a name": ("[[chain]]\nnodes = [1]\n", "chain 0, from 0: expected a name"),
    "a chain without nodes": ('[[chain]]\nname = "a"\n', "chain 0, from 0: expected nodes, as [1, 2, 3]"),
    "a number for nodes": (table(nodes="1"), "chain 0, from 0: expected nodes, as [1, 2, 3]"),
    "a chain with another key": (
        table() + "color = 1\n",
        'chain 0, from 0: expected a name and nodes alone, and found the key "color"',
    ),
    "a number as a name": ("[[chain]]\nname = 1\nnodes = [1]\n", NAME),
    "an empty name": (table(""), NAME),
    "a name of 33": (table("a" * 33), NAME),
    "a name with a blank": (table("a b"), NAME),
    "a name twice": (
        table() + table("b") + table(nodes="[2]"),
        "chain 2, from 0: an earlier chain has the name a too",
    ),
    "no nodes": (table(nodes="[]"), "chain 0, from 0: expected 1 to 8 nodes, and found 0"),
    "9 nodes": (
        table() + table("b", "[1, 2, 3, 4, 5, 6, 7, 8, 9]"),
        "chain 1, from 0: expected 1 to 8 nodes, and found 9",
    ),
    "node 0": (table(nodes="[0]"), NODES),
    "a negative node": (table(nodes="[-1]"), NODES),
    "a node of 33 bits": (table(nodes="[4294967296]"), NODES),
    "a node twice": (table(nodes="[1, 2, 1]"), "chain 0, from 0: node 1 stands twice"),
    "a node as text": (table(nodes='["1"]'), NODES),
    "a node with a point": (table(nodes="[1.0]"), NODES),
}

# Addresses at which nothing can listen, each with the reason. The last is of a network that no system
# has: it stands in documents alone.
FORM = "an address is HOST:PORT, as 127.0.0.1:7000"
NO_ADDRESS = [
    ("7000", FORM),
    ("127.0.0.1", FORM),
    ("127.0.0.1:70000", FORM),
    ("192.0.2.1:0", "Cannot assign requested address (os error 99)"),
]
IN_USE = "Address already in use (os error 98)"

NO_LINE = [
    [],
    ["PLAN"],
    ["PLAN", "127.0.0.1:0", "more"],
    ["--unknown", "PLAN", "127.0.0.1:0"],
    ["--connections", "x", "PLAN", "127.0.0.1:0"],
    ["--connections", "-1", "PLAN", "127.0.0.1:0"],
    ["--connections", "4294967296", "PLAN", "127.0.0.1:0"],
    ["--connections"],
]

# The greatest plan: 64 chains of 8 nodes. Its threads have no room in this address space.
GREATEST = "".join(table(f"c{i}", "[1, 2, 3, 4, 5, 6, 7, 8]") for i in range(64))
LITTLE = 600 << 20


def plans(checks, craqd, taken):
    """Nothing of this listens. At `taken` another server does, which would be the last fault."""
    for words in NO_LINE:
        status, out, err = running.ended([craqd, *words])
        checks.same(f"craqd {' '.join(words)}", (status, out, err != ""), (2, "", True))
    with tempfile.TemporaryDirectory() as folder:
        for file, reason in (
            (os.path.join(folder, "none"), "No such file or directory (os error 2)"),
            (folder, "Is a directory (os error 21)"),
        ):
            checks.same(
                f"craqd {file}",
                running.ended([craqd, file, taken]),
                (2, "", f"cannot read {file}\ncraqd: {reason}\n"),
            )
    for what, (text, rule) in NO_PLAN.items():
        with running.text_file(text) as file:
            checks.same(
                f"a plan with {what}",
                running.ended([craqd, file.name, taken]),
                (2, "", f"plan refused\ncraqd: {rule}\n"),
            )
    with running.text_file(GREATEST) as file:
        found = running.ended([craqd, file.name, taken], LITTLE)
        checks.same("the greatest plan in little memory", found, (3, "", "no memory\n"))
    with running.text_file(running.PLAN) as file:
        for words in [file.name, taken], ["--journal", "--connections", "1", file.name, taken]:
            found = running.ended([craqd, *words])
            checks.same(
                "an address in use", found, (4, "", f"cannot listen\ncraqd: ADDRESS {taken}: {IN_USE}\n")
            )
        for address, reason in NO_ADDRESS:
            found = running.ended([craqd, file.name, address])
            checks.same(
                f"the address {address}",
                found,
                (4, "", f"cannot listen\ncraqd: ADDRESS {address}: {reason}\n"),
            )
        status, err = running.unheard([craqd, file.name, "127.0.0.1:0"])
        served = running.served_line(file, 0, *running.way([]))
        checks.that(
            status == 1 and re.fullmatch(served + "cannot print\n", err),
            f"craqd that cannot print: {status} {err!r}",
        )


def great_plan(checks, craqd, craq):
    """The limits of a plan are allowed. Without --journal no audit is printed."""
    names = [f"{i:02}" + "n" * 30 for i in range(64)]
    plan = "".join(table(name, "[4294967295]") for name in names)
    server = running.Server(craqd, plan, 4, journal=False)
    try:
        words = [craq, "--connect", server.address, "--node", "4294967295"]
        server.counts(3)
        told = ",".join(f'{{"epoch":1,"members":[4294967295],"name":"{name}"}}' for name in names)
        checks.same(
            "status of 64 chains",
            running.ended([*words, "status"]),
            (0, f'{{"chains":[{told}]}}\npass 0\n', ""),
        )
        for ask, wanted in ("put 1 1 63/k a", "written 1"), ("read strong 63/k", "read 1 0x61"):
            status, out, err = running.ended([*words, *ask.split()])
            checks.same(f"craq {ask}", (status, out.splitlines()[:1], err), (0, [wanted], ""))
        server.finish(checks, "craqd without --journal", "")
    finally:
        server.kill()
