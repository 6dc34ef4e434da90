"""craq: every command, every refusal that it can meet, every fault.

A row is the node, the words of the command, and what has to be printed: an answer, or 'refused ..'.
Texts are written from docs/use/SCRIPTS.md and docs/use/CRAQ.md, never from what a program printed.
"""
import re
import socket
import threading

from tools.end_to_end import running

KEY, LONG_KEY = "k" * 128, "k" * 129
VALUE, LONG_VALUE = "v" * 4096, "v" * 4097
MOST = [f"w:k{i}:1" for i in range(16)]
MAX = "18446744073709551615"

# On a fresh store, in this order.
ROWS = [
    (1, "read strong k", "read 0 0x"),
    (1, "put 1 1 k a", "written 1"),
    (1, "read strong k", "read 1 0x61"),
    (2, "read strong k", "read 1 0x61"),
    (3, "read strong k", "read 1 0x61"),
    (2, "read eventual k", "read 1 0x61"),
    (2, "read bounded:0 k", "read 1 0x61"),
    (3, "read bounded:4294967295 k", "read 1 0x61"),
    (1, "put 1 1 k z", "written 1"),
    (1, "put 1 2 k b", "written 2"),
    (1, "put 1 2 k z", "written 2"),
    (1, "tas 1 3 k 2 c", "written 3"),
    (1, "tas 1 4 k 2 d", "mismatch 3"),
    (1, "append 1 5 k d", "written 4"),
    (3, "read strong k", "read 4 0x6364"),
    (1, "prepend 1 6 k 0x6162", "written 5"),
    (3, "read strong k", "read 5 0x61626364"),
    (1, f"append 1 7 k {'v' * 4093}", "toolong"),
    (1, "inc 1 8 k 1", "notanumber"),
    (1, f"inc 1 9 n {MAX}", "written 1"),
    (1, "inc 1 10 n 1", "overflow"),
    (1, f"dec 1 11 n {MAX}", "written 2"),
    (1, "dec 1 12 n 1", "underflow"),
    (2, "read strong n", "read 2 0x0000000000000000"),
    (1, "mini 1 13 c:k:5 r:k r:none w:k:x w:l:0x", "done 5:0x61626364 0:0x"),
    (3, "read strong k", "read 6 0x78"),
    (3, "read strong l", "read 1 0x"),
    (1, "mini 1 14 c:l:1 c:k:5 w:k:y", "comparefailed 1"),
    (1, "mini 1 15 r:k", "done 6:0x78"),
    (4, "put 1 1 1/k b", "written 1"),
    (5, "read strong 1/k", "read 1 0x62"),
    (4, "mini 1 2 w:1/k:c w:1/l:d", "done"),
    # each limit is allowed
    (1, f"put 1 16 {KEY} {VALUE}", "written 1"),
    (1, "mini 1 17 " + " ".join(MOST), "done"),
    (2, f"read strong {KEY}", "read 1 0x" + "76" * 4096),
    (1, f"put {MAX} {MAX} k e", "written 7"),
    # all words after the command are its own
    (1, "put 1 18 -k --pass", "written 1"),
    (3, "read strong -k", "read 1 0x2d2d70617373"),
    # a number below all 8 whose replies are kept
    (1, "put 1 1 k z", "stale 18"),
    # refused before a connection is made: the lowest number of the whole line
    (1, f"put 1 19 {LONG_KEY} a", "refused 1"),
    (1, f"read strong {LONG_KEY}", "refused 1"),
    (1, f"put 1 19 k {LONG_VALUE}", "refused 2"),
    (1, "mini 1 19 " + " ".join(MOST) + " w:k16:1", "refused 3"),
    (1, "mini 1 19", "refused 4"),
    (1, "mini 1 19 w:k:a w:k:b", "refused 5"),
    (1, "put 1 0 k a", "refused 6"),
    (1, f"put 1 0 {LONG_KEY} {LONG_VALUE}", "refused 1"),
    (1, "mini 1 0", "refused 4"),
    # refused by the store, in the order of docs/use/BYTES.md
    (1, "read strong 2/k", "refused 7"),
    (1, "put 1 19 65535/k a", "refused 7"),
    (1, "mini 1 19 r:k r:1/k", "refused 8"),
    (2, "put 1 19 k a", "refused 9 1"),
    (5, "put 1 19 1/k a", "refused 9 4"),
    (9, "read strong k", "refused 23"),
    (0, "read strong k", "refused 23"),
    (4, "read strong k", "refused 23"),
    (9, "read strong 2/k", "refused 7"),
    (9, "mini 1 19 r:k r:1/k", "refused 23"),
    (2, "mini 1 19 r:k r:1/k", "refused 8"),
    # and nothing of that changed anything
    (1, "put 1 19 k f", "written 8"),
    # the replies to 8 numbers are kept; one between them that was never asked is new
    (1, "put 1 22 k g", "written 9"),
    (1, "put 1 14 k z", "comparefailed 1"),
    (1, "put 1 20 k h", "written 10"),
    (1, "put 1 22 k z", "written 9"),
    (1, "put 1 13 k z", "stale 22"),
]

# Words that are no command: the word that is wrong, or None where one is missing, and what is expected there.
NO_COMMAND = [
    ("put 1 1 k", None, "VALUE"),
    ("put 1 0 k", None, "VALUE"),
    ("put 1 1 k a b", "b", "no more words"),
    ("put 01 1 k a", "01", "CLIENT"),
    ("put 1 -1 k a", "-1", "NUMBER"),
    ("put x y k", "x", "CLIENT"),
    ("put 1 1 65536/k a", "65536/k", "OBJECT"),
    ("put 1 1 k. a", "k.", "OBJECT"),
    ("put 1 1 k 0x6", "0x6", "VALUE"),
    ("put 1 1 k 0xAB", "0xAB", "VALUE"),
    (f"put 1 {MAX}0 k a", MAX + "0", "NUMBER"),
    ("put", None, "CLIENT"),
    ("append 1 1 k", None, "VALUE"),
    ("prepend 1 1", None, "OBJECT"),
    ("tas 1 1 k a", "a", "VERSION"),
    ("tas 1 1 k 2", None, "VALUE"),
    ("tas 1 1 k 2 a b", "b", "no more words"),
    ("inc 1 1 k", None, "BY"),
    ("inc 1 1 k x", "x", "BY"),
    ("dec 1 1 k 1 1", "1", "no more words"),
    ("mini 1", None, "NUMBER"),
    ("mini 1 1 k", "k", "ITEM"),
    ("mini 1 1 r:k x:k", "x:k", "ITEM"),
    ("mini 1 1 w:k:", "w:k:", "ITEM"),
    ("read k", "k", "MODE"),
    ("read weak k", "weak", "MODE"),
    ("read bounded:x k", "bounded:x", "MODE"),
    ("read strong", None, "OBJECT"),
    ("read bounded:4294967296 k", "bounded:4294967296", "MODE"),
    ("read strong k k", "k", "no more words"),
    ("deliver 1", "deliver", "a command"),
    ("tick 1", "tick", "a command"),
    ("stop 1", "stop", "a command"),
    ("remove 1", "remove", "a command"),
    ("join 6", "join", "a command"),
    ("explain", "explain", "a command"),
    ("status now", "now", "no more words"),
    ("shell now", "now", "no more words"),
    ("watch 0", "0", "SECONDS"),
    ("watch 86401", "86401", "SECONDS"),
    ("watch 1 1", "1", "no more words"),
    ("bench 5", None, "SECONDS"),
    ("bench 0 1 50", "0", "CONNECTIONS"),
    ("bench 1001 1 50", "1001", "CONNECTIONS"),
    ("bench 1 0 50", "0", "SECONDS"),
    ("bench 1 1 101", "101", "READS"),
    ("bench 1 1 50 1", "1", "no more words"),
]

# Values that fit no script line: an empty one, and characters other than printable ASCII.
NO_VALUES = ["", "a b", "é", "a\tb", "a\nb", "\x7f", "\uf7ff"]

# Command lines whose options are wrong, and how the message begins.
NO_ADDRESS = "error: an address is HOST:PORT, as 127.0.0.1:7000\n"
MIXED = [
    ("--connect here --node 1 read strong k".split(), NO_ADDRESS),
    ("--connect 127.0.0.1:99999 --node 1 read strong k".split(), NO_ADDRESS),
    ("--connect 127.0.0.1:0 --node 1 put 1 1 k v".split(), NO_ADDRESS),
    ("--connect :7000 shell".split(), NO_ADDRESS),
    ("watch 1 --metrics 7004".split(), NO_ADDRESS),
    (
        "--connect 127.0.0.1:1 --node 4 --chain b put 1 1 k v".split(),
        "error: options of verbs do not go with commands\n",
    ),
    (
        "--connect 127.0.0.1:1 --node 1 --json status".split(),
        "error: options of verbs do not go with commands\n",
    ),
    ([], "Asks a server of a replicated object store, and prints its answer\n"),
]

# Command lines that are none, without the address.
NO_LINE = [
    [],
    ["read", "strong", "k"],
    ["--node", "01", "read", "strong", "k"],
    ["--node", "x", "read", "strong", "k"],
    ["--node", "4294967296", "read", "strong", "k"],
    ["--node", "1", "--pass", "-1", "read", "strong", "k"],
    ["--node", "1", "--pass", MAX + "0", "read", "strong", "k"],
    ["--node", "1", "--unknown", "read", "strong", "k"],
]

# Replies that no server sends, after which the connection is of no use.
NO_REPLY = {
    "nothing": "",
    "a length alone": "00000013",
    "a reply cut short": "00000013 0101 0000000000000009 01 00000000000000",
    "a length above the limit": "00100001",
    "an empty payload": "00000000",
    "a request": "00000002 0103",
    "a reply and a byte more": "00000014 0101 0000000000000009 01 0000000000000001 00",
    "version 0 with a value": "00000015 0102 0000000000000009 0000000000000000 000161",
}

# The words of refusals on standard error.
WORDS = {
    1: "a key has 1 to 128 bytes",
    2: "a value has at most 4096 bytes",
    3: "each list of a transaction has at most 16 items",
    4: "a transaction compares, reads or writes at least one object",
    5: "an object occurs twice in one list of the transaction",
    6: "request numbers begin at 1",
    7: "there is no such chain",
    8: "the objects are not all in the chain that was named",
    9: "updates go to the head of the chain, node {}",
    13: "a counter is at its greatest value, or the pass is too large",
    14: "out of memory",
    23: "there is no such node here",
}


def words_of(refused):
    """Returns the line on standard error for a refusal that is printed like this."""
    _, number, *detail = refused.split()
    return f"craq: {WORDS[int(number)].format(*detail)}\n"


def chain_of(words):
    return 1 if re.search(r"(^|[ :])1/", words) else 0


def asked(craq, address, node, words, shown=None):
    line = [
        craq,
        "--connect",
        address,
        "--node",
        str(node),
        *(["--pass", str(shown)] if shown is not None else []),
        *words.split(" "),
    ]
    return running.ended(line)


def check_row(checks, server, craq, row, shown):
    """Runs one command, checks its output, and returns the pass to show from now on."""
    node, words, wanted = row
    status, out, err = asked(craq, server.address, node, words, shown)
    what = f"craq --node {node} {words[:60]}"
    if wanted.startswith("refused"):
        checks.same(what, (status, out, err), (3, wanted + "\n", words_of(wanted)))
        if wanted.split()[1] not in list("123456"):
            server.counts()
        return shown
    server.counts()
    server.answers(chain_of(words))
    found = re.fullmatch(r"(.*)\npass ([1-9][0-9]*)\n", out)
    checks.same(what, (status, found and found[1], err), (0, wanted, ""))
    if not found:
        return shown
    checks.that(int(found[2]) > shown, f"{what}: the pass rises above {shown}: {found[2]}")
    return max(shown, int(found[2]))


def rows(checks, server, craq):
    shown = 0
    for row in ROWS:
        shown = check_row(checks, server, craq, row, shown)
    # a pass of another client, far above what the node has seen, is covered by its answer
    check_row(checks, server, craq, (3, "read strong k", "read 10 0x68"), shown + 1_000_000)
    for node in 1, 2:
        found = asked(craq, server.address, node, "put 1 20 k g", MAX)
        server.counts()
        checks.same(f"a pass at its end at node {node}", found, (3, "refused 13\n", words_of("refused 13")))
    for shown, told in (None, 0), (7, 7):
        found = asked(craq, server.address, 1, "status", shown)
        server.counts()
        checks.same(f"craq status with pass {shown}", found, (0, f"{running.STATUS}\npass {told}\n", ""))
    found = running.unheard([craq, "--connect", server.address, "--node", "1", "status"])
    server.counts()
    checks.same("craq that cannot print", found, (1, "cannot print\n"))


def is_told(err, wrong, expected):
    """Returns whether standard error has `script line 1`, then what was expected, and what stands there
    instead."""
    found = "the end of the words" if wrong is None else f"'{wrong}'"
    return (
        re.match(
            rf"script line 1\nerror: expected {expected}(, [^\n]*)?, and found {re.escape(found)}\n", err
        )
        is not None
    )


def no_commands(checks, craq, nowhere):
    """Faults of the command line come before any connection: nothing listens at `nowhere`."""
    for words, wrong, expected in NO_COMMAND:
        status, out, err = asked(craq, nowhere, 1, words)
        checks.same(f"craq {words}", (status, out, is_told(err, wrong, expected)), (2, "", True))
    for value in NO_VALUES:
        status, out, err = running.ended(
            [craq, "--connect", nowhere, "--node", "1", "put", "1", "1", "k", value]
        )
        checks.same(f"craq put 1 1 k {value!r}", (status, out, is_told(err, value, "VALUE")), (2, "", True))
        item = f"w:k:{value}"
        status, out, err = running.ended([craq, "--connect", nowhere, "--node", "1", "mini", "1", "1", item])
        checks.same(f"craq mini 1 1 {item!r}", (status, out, is_told(err, item, "ITEM")), (2, "", True))
    for given, told in MIXED:
        status, out, err = running.ended([craq, *given])
        checks.same(f"craq {' '.join(given)}", (status, out, err.startswith(told)), (2, "", True))
    for words in NO_LINE:
        status, out, err = running.ended([craq, *(["--connect", nowhere] if words else []), *words])
        checks.same(f"craq {' '.join(words)}", (status, out, err != ""), (2, "", True))
    status, out, err = running.ended([craq, "--node", "1", "read", "strong", "k"])
    checks.same("craq without --connect", (status, out, err != ""), (2, "", True))


def no_server(checks, craq, nowhere):
    fault = (4, "", "connection\n")
    checks.same("craq where nothing listens", asked(craq, nowhere, 1, "read strong k"), fault)
    for words, refusal in (f"put 1 0 {LONG_KEY} a", 1), ("put 1 0 k a", 6):
        found = asked(craq, nowhere, 1, words)
        checks.same(
            f"craq {words[:9]} where nothing listens",
            found,
            (3, f"refused {refusal}\n", words_of(f"refused {refusal}")),
        )
    for what, reply in NO_REPLY.items():
        found = asked_of(craq, bytes.fromhex(reply))
        checks.same(f"craq to whom {what} is sent", found, fault)
    found = asked_of(craq, bytes.fromhex("0000000b 0103 0e 0000000000000000"))
    checks.same(
        "craq to whom a server without memory replies", found, (3, "refused 14\n", words_of("refused 14"))
    )


def asked_of(craq, reply):
    """Returns the status and the output of craq when a server sends it this instead of a reply."""
    with socket.create_server(("127.0.0.1", 0)) as listener:

        def give():
            made, _ = listener.accept()
            with made:
                made.settimeout(running.PATIENCE)
                made.recv(4096)
                made.sendall(reply)

        giving = threading.Thread(target=give, daemon=True)
        giving.start()
        found = asked(craq, f"127.0.0.1:{listener.getsockname()[1]}", 1, "put 1 1 k a")
        giving.join(running.PATIENCE)
        return found


def helps(checks, craq, craqd):
    for program, words in (
        craq,
        "set get cas append prepend add sub txn members health put tas append prepend inc dec mini read "
        "status shell watch bench "
        "--connect --node --pass --chain --client --number --hex --decimal --json --print-pass --connections "
        "--seconds --mix --keys --size --metrics",
    ), (craqd, "--journal --connections --control --metrics stop remove join CHAIN/NODE PLAN ADDRESS"):
        status, out, err = running.ended([program, "--help"])
        missing = [it for it in words.split() if it not in out]
        name = program.rpartition("/")[2]
        checks.same(f"{name} --help", (status, missing, err), (0, [], ""))
        status, out, err = running.ended([program, "--version"])
        checks.that(
            status == 0 and re.fullmatch(r"craqd? [0-9]+\.[0-9]+\.[0-9]+\n", out) and not err,
            f"{name} --version: {status} {out!r} {err!r}",
        )
