"""craq's verbs for people: each verb, option, default and fault, alone and in the prompt. Texts are
written from docs/use/CRAQ.md, never from what a program printed."""
import json
import os
import re
import socket
import subprocess
import sys
import tempfile
import threading

from jilsdau import wire

from tools import repository
from tools.end_to_end import running

JILSDAU = os.path.join(repository.TOP, "clients/python/jilsdau")
MAX = 2**64 - 1
LONG_KEY, LONG_VALUE = "k" * 129, "v" * 4097
KEY_WORDS = "craq: a key has 1 to 128 bytes\n"
NO_MORE = "craq: expected no more words, and found '{}'\n"

# On a fresh store, in this order: the words, the status, what is printed, and what standard error has.
ROWS = [
    ("get colour", 6, "", "craq: absent: the object was never written\n"),
    ("set colour blue", 0, "written 1\n", ""),
    ("get colour", 0, "blue", ""),
    ("get colour --node 3 --print-pass", 0, "blue\npass N\n", ""),
    ("--node 2 get colour --hex", 0, "626c7565\n", ""),
    ("get --mode eventual colour", 0, "blue", ""),
    ("get colour --mode bounded:1 --node=3", 0, "blue", ""),
    ("set colour 00ff --hex", 0, "written 2\n", ""),
    ("get colour", 0, b"\0\xff", ""),
    ("get colour --json", 0, {"reply": "read", "version": 2, "value_hex": "00ff"}, ""),
    ("cas colour 2 red", 0, "written 3\n", ""),
    ("cas colour 2 green", 5, "mismatch 3\n", ""),
    ("cas colour 2 green --json", 5, {"reply": "mismatch", "version": 3}, ""),
    ("get colour --json", 0, {"reply": "read", "version": 3, "value": "red"}, ""),
    ("get nothing --json", 6, {"reply": "read", "version": 0, "value": ""}, ""),
    ("add n", 0, "written 1\n", ""),
    ("add n 41", 0, "written 2\n", ""),
    ("sub n 2 --json", 0, {"reply": "written", "version": 3}, ""),
    ("get n --decimal", 0, "40\n", ""),
    ("sub n 41", 5, "underflow\n", ""),
    (f"add n {MAX}", 5, "overflow\n", ""),
    ("add colour", 5, "notanumber\n", ""),
    ("add colour --json", 5, {"reply": "notanumber"}, ""),
    ("txn c:colour:3 r:colour r:nothing w:seen:a:b", 0, "done\n3 red\n0 \n", ""),
    ("get seen", 0, "a:b", ""),
    ("txn c:colour:3 c:seen:7 w:seen:no", 5, "comparefailed 1\n", ""),
    ("txn c:seen:7 --json", 5, {"reply": "comparefailed", "index": 0}, ""),
    (
        "txn r:seen r:n --json",
        0,
        {
            "reply": "done",
            "reads": [{"version": 1, "value": "a:b"}, {"version": 3, "value": "\0\0\0\0\0\0\0("}],
        },
        "",
    ),
    ("--chain b set colour bark", 0, "written 1\n", ""),
    ("get colour --chain 1", 0, "bark", ""),
    ("members", 0, "a: 1 2 3\nb: 4 5\n", ""),
    (
        "members --json",
        0,
        {
            "chains": [
                {"id": 0, "name": "a", "epoch": 1, "members": [1, 2, 3]},
                {"id": 1, "name": "b", "epoch": 1, "members": [4, 5]},
            ]
        },
        "",
    ),
    ("append end a", 0, "written 1\n", ""),
    ("prepend end b", 0, "written 2\n", ""),
    ("append end 63 --hex", 0, "written 3\n", ""),
    ("get end", 0, "bac", ""),
    ("get health", 6, "", "craq: absent: the object was never written\n"),
    ("set -- --key --value", 0, "written 1\n", ""),
    ("get -- --key", 0, "--value", ""),
    # one number, one update
    ("set once a --client 7 --number 10", 0, "written 1\n", ""),
    ("set once b --client 7 --number 10", 0, "written 1\n", ""),
    ("get once", 0, "a", ""),
    # refused by the store
    ("set colour grey --node 3", 3, "", "craq: refused 9 1: updates go to the head of the chain, node 1\n"),
    ("get colour --node 9", 3, "", "craq: refused 23: there is no such node here\n"),
    *(
        (f"--chain {it} get colour", 3, "", "craq: refused 7: there is no such chain\n")
        for it in ("9", "01", "c")
    ),
    ("--chain nowhere set colour grey", 3, "", "craq: refused 7: there is no such chain\n"),
    ("health", 0, "node 1 N ms\nnode 2 N ms\nnode 3 N ms\nupdate N ms\n", ""),
    ("health --chain b", 0, "node 4 N ms\nnode 5 N ms\nupdate N ms\n", ""),
    ("set w 7 --decimal", 0, "written 1\n", ""),
    ("add w", 0, "written 2\n", ""),
    ("get w --decimal", 0, "8\n", ""),
    ("get w --json --decimal", 0, {"reply": "read", "version": 2, "number": 8}, ""),
    ("get w --json --hex", 0, {"reply": "read", "version": 2, "value_hex": "0000000000000008"}, ""),
    ("get colour --json --hex", 0, {"reply": "read", "version": 3, "value_hex": "726564"}, ""),
    ("get colour --json --decimal", 0, {"reply": "read", "version": 3, "value": "red"}, ""),
    (f"cas w 2 {MAX} --decimal", 0, "written 3\n", ""),
    ("txn r:w w:x:1 --decimal", 0, f"done\n3 {MAX}\n", ""),
    ("txn r:x --json --decimal", 0, {"reply": "done", "reads": [{"version": 1, "number": 1}]}, ""),
    ("append w 1 --decimal", 0, "written 4\n", ""),
    ("get w --hex", 0, "ffffffffffffffff0000000000000001\n", ""),
]
VALUE = (
    "craq: expected VALUE, a text; with --hex pairs of hexadecimal digits in lower case, "
    "with --decimal a number, "
    "and found "
)
VERB = (
    "craq: expected a verb, as set, get, cas, append, prepend, add, sub, txn, members or health, "
    "and found 'gett'\n"
)
NO_ADDRESS = "error: an address is HOST:PORT, as 127.0.0.1:7000\n"

# Wrong words: nothing is sent. What standard error has to have.
WRONG = [
    ("get", "craq: expected KEY, of 1 to 128 bytes, and found the end of the words\n"),
    ("get a b", NO_MORE.format("b")),
    ("set a", VALUE + "the end of the words\n"),
    ("set a b c", NO_MORE.format("c")),
    ("set a xyz --hex", VALUE + "'xyz'\n"),
    ("set a x --decimal", VALUE + "'x'\n"),
    (f"set a {MAX}0 --decimal", VALUE + f"'{MAX}0'\n"),
    (
        "cas a x b",
        "craq: expected VERSION, a number of 64 bits in decimal digits without leading zeros, "
        "and found 'x'\n",
    ),
    (
        "add a x",
        "craq: expected BY, a number of 64 bits in decimal digits without leading zeros, and found 'x'\n",
    ),
    (
        "txn x:a",
        "craq: expected ITEM, one of c:KEY:VERSION, r:KEY and w:KEY:VALUE, with a KEY without a colon, and "
        "found 'x:a'\n",
    ),
    (
        "txn r:a:b",
        "craq: expected ITEM, one of c:KEY:VERSION, r:KEY and w:KEY:VALUE, with a KEY without a colon, "
        "and found 'r:a:b'\n",
    ),
    ("txn", "craq: a transaction compares, reads or writes at least one object\n"),
    ("txn r:a r:a", "craq: an object occurs twice in one list of the transaction\n"),
    (
        "txn " + " ".join(f"r:{it}" for it in range(17)),
        "craq: each list of a transaction has at most 16 items\n",
    ),
    (f"get {LONG_KEY}", KEY_WORDS),
    (f"set {LONG_KEY} a", KEY_WORDS),
    (f"txn r:{LONG_KEY}", KEY_WORDS),
    (f"set a {LONG_VALUE}", "craq: a value has at most 4096 bytes\n"),
    ("gett a", VERB),
    ("--node 1 gett a", VERB),
    ("--connect a:1 --node 1 --json gett a", VERB),
    ("append 1 1 k v", NO_MORE.format("k")),
    (
        "put 1 1 a b",
        "error: the following required arguments were not provided:\n  --connect <ADDRESS>\n  --node <N>\n",
    ),
    ("members now", NO_MORE.format("now")),
    ("health now", NO_MORE.format("now")),
    ("get a --node x", "error: --node takes a number of 32 bits in decimal digits without leading zeros\n"),
    ("get a --pass 01", "error: --pass takes a number of 64 bits in decimal digits without leading zeros\n"),
    ("get a --mode weak", "error: --mode takes strong, eventual, or bounded:K with K of 32 bits\n"),
    (
        "set a b --client x",
        "error: --client takes a number of 64 bits in decimal digits without leading zeros\n",
    ),
    (
        "set a b --number 0",
        "error: --number takes a number of 64 bits in decimal digits without leading zeros, and not 0\n",
    ),
    ("get a --unknown", "error: unexpected argument '--unknown' found\n"),
    ("get a --connect localhost", NO_ADDRESS),
    ("get a --connect 127.0.0.1:99999", NO_ADDRESS),
    ("get a --connect :7000", NO_ADDRESS),
    ("get a --connect a:070", NO_ADDRESS),
    ("set a 1 --hex --decimal", "error: --hex and --decimal do not go together\n"),
    *(
        (f"{words} --{it}", f"error: --{it.split()[0]} has no meaning for {words.split()[0]}\n")
        for words, options in (
            ("set a b", ["mode eventual"]),
            ("append a b", ["mode strong"]),
            ("txn r:a", ["mode strong"]),
            ("add a", ["mode strong", "hex", "decimal"]),
            ("sub a 1", ["hex"]),
            ("get a", ["client 7", "number 7"]),
            (
                "members",
                ["node 1", "chain a", "mode strong", "client 7", "number 7", "hex", "decimal", "print-pass"],
            ),
            ("health", ["node 1", "mode strong", "number 7", "hex", "decimal", "print-pass"]),
        )
        for it in options
    ),
]

# Lines of a prompt: the line, the answer on standard output, and standard error.
ENTERED = [
    ("set k a", "written 1", None),
    ("get k --print-pass", "a\npass N", None),
    ("put 7 1 k b", "written 2", None),
    ("get k --hex", "62", None),
    ("node 3", None, None),
    ("read strong k", "read 2 0x62", None),
    ("put 7 2 k c", "refused 9 1", "craq: updates go to the head of the chain, node 1"),
    ("set k c", "written 3", None),
    ("cas k 1 d", "mismatch 3", None),
    ("set k -", "written 4", None),
    ("get k --json", '{"reply":"read","version":4,"value":"-","pass":N}', None),
    ("set k", None, VALUE + "the end of the words"),
    ("node 1", None, None),
    ("append 7 2 k x", "written 5", None),
    ("prepend k y", "written 6", None),
    ("get k", "y-x", None),
    ("get k", "y-x", None),
    ("append k 1 --node 2", None, "craq: refused 9 1: updates go to the head of the chain, node 1"),
    ("get k --connect here:1", None, "error: the prompt stays at its server: --connect stands before it"),
    ("members", "a: 1 2 3\nb: 4 5", None),
]


def without_numbers(text):
    """The text with N in place of passes and times."""
    return re.sub(
        '(pass|ms|update|node [0-9]+|"pass":) ?[0-9.]+',
        lambda it: ('"pass":N' if it[1].startswith('"') else f"{it[1]} N"),
        text,
    )


def environment(home, **more):
    """The environment of a user whose home is this folder."""
    kept = {
        name: text
        for name, text in os.environ.items()
        if name not in ("XDG_STATE_HOME", "CRAQ_CONNECT", "CRAQ_CLIENT")
    }
    return {**kept, "HOME": home, **more}


def ran(words, env, given=b""):
    """Runs a program to its end: its status, standard output as bytes, standard error."""
    it = subprocess.run(words, input=given, capture_output=True, env=env, timeout=running.PATIENCE)
    return it.returncode, it.stdout, it.stderr.decode(errors="replace")


def output_of(out, wanted):
    """Standard output in the form of what is wanted: bytes, a JSON object without its pass, or a text."""
    if isinstance(wanted, dict):
        told = json.loads(out)
        return {name: it for name, it in told.items() if name != "pass"} if "pass" in told else told
    return out if isinstance(wanted, bytes) else without_numbers(out.decode(errors="replace"))


def check_row(checks, craq, env, row):
    words, status, wanted, err = row
    found = ran([craq, *words.split()], env)
    checks.same(
        f"craq {words[:60]}", (found[0], output_of(found[1], wanted), found[2]), (status, wanted, err)
    )


def in_python(checks, craqd, home):
    """The command in Python prints the same, and ends with the same status, on a store of its own. It
    refuses the same words."""
    server = running.Server(craqd, running.PLAN, 0, journal=False)
    try:
        env = environment(home, CRAQ_CONNECT=server.address)
        for words, status, wanted, _ in ROWS:
            found = ran([sys.executable, JILSDAU, *words.split()], env)
            checks.same(f"jilsdau {words[:60]}", (found[0], output_of(found[1], wanted)), (status, wanted))
        for words, _ in WRONG:
            status, out, err = ran([sys.executable, JILSDAU, *words.split(" ")], env)
            checks.that(
                (status, out) == (2, b"") and err.startswith("jilsdau: "),
                f"jilsdau {words[:60]}: {status} {err!r}",
            )
    finally:
        server.kill()


def verbs(checks, server, craq, home):
    env = environment(home, CRAQ_CONNECT=server.address)
    for row in ROWS:
        check_row(checks, craq, env, row)
    kept = os.path.join(home, ".local/state/jilsdau/client")
    with open(kept, encoding="ascii") as it:
        first = it.read()
    checks.that(re.fullmatch("[0-9]+\n", first), f"the client's id is kept: {first!r}")
    checks.same("the folder has the id alone", os.listdir(os.path.dirname(kept)), ["client"])
    checks.same("craq set again", ran([craq, "set", "again", "x"], env), (0, b"written 1\n", ""))
    with open(kept, encoding="ascii") as it:
        checks.same("the client's id stays", it.read(), first)


def values(checks, server, craq, home):
    """Values from standard input, and words that are no text."""
    env = environment(home, CRAQ_CONNECT=server.address)
    for value in b"", b"line\n", bytes(range(256)), b"v" * 4096:
        status, out, err = ran([craq, "set", "raw", "-"], env, value)
        checks.that(
            status == 0 and out.startswith(b"written ") and not err, f"craq set raw -: {status} {out} {err}"
        )
        checks.same(f"craq get raw of {len(value)} bytes", ran([craq, "get", "raw"], env), (0, value, ""))
    found = ran([craq, "set", "raw", "-"], env, b"v" * 4097)
    checks.same("craq set raw - with 4097 bytes", found, (2, b"", "craq: a value has at most 4096 bytes\n"))
    for value, shown in (b"5\n", "5\\n"), (b"\xc3\xa9", "\\xc3\\xa9"), (b"x" * 65, "x" * 64 + ".."):
        found = ran([craq, "set", "raw", "-", "--decimal"], env, value)
        checks.same(f"craq set raw - --decimal with {value}", found, (2, b"", f"{VALUE}'{shown}'\n"))
    status, out, err = ran([craq, "cas", "raw", "4", "-", "--hex"], env, b"00ff")
    checks.same("craq cas raw 4 - --hex", (status, out, err), (0, b"written 5\n", ""))
    for key in b"\xff\x00"[:1], "é \uf7ff".encode(), b"a/b", b"\xf0\x80":
        found = ran([craq, b"set", key, b"\xfe" + key], env)
        checks.same(f"craq set {key}", found, (0, b"written 1\n", ""))
        checks.same(f"craq get {key}", ran([craq, b"get", key], env), (0, b"\xfe" + key, ""))
    found = ran([craq, "--connect", server.address, "--node", "1", "put", "1", "1", "k", b"\xff"], env)
    checks.same(
        "craq put with a word that is no text",
        found,
        (2, b"", "error: a word of the command line is not UTF-8\n"),
    )


def ids(checks, server, craq, home):
    """Where the client's id comes from."""
    env = environment(home, CRAQ_CONNECT=server.address)
    state = os.path.join(home, "state")
    found = ran([craq, "set", "id", "a"], {**env, "XDG_STATE_HOME": state})
    checks.same("craq set with XDG_STATE_HOME", found, (0, b"written 1\n", ""))
    checks.that(os.path.isfile(os.path.join(state, "jilsdau/client")), "the id lies in XDG_STATE_HOME")
    shared = ran([sys.executable, JILSDAU, "set", "id", "b"], {**env, "XDG_STATE_HOME": state})
    checks.same("the command in Python shares the id", shared, (0, b"written 2\n", ""))
    found = ran([craq, "set", "id", "c", "--number", "5"], {**env, "CRAQ_CLIENT": "4711"})
    checks.same("craq set with CRAQ_CLIENT", found, (0, b"written 3\n", ""))
    found = ran([craq, "--client", "4711", "set", "id", "d", "--number", "5"], env)
    checks.same("craq set with the same client and number", found, (0, b"written 3\n", ""))
    found = ran([craq, "set", "id", "c"], {**env, "CRAQ_CLIENT": "x"})
    checks.same(
        "craq set with a CRAQ_CLIENT that is none",
        found,
        (2, b"", "craq: the variable CRAQ_CLIENT holds no client id, a number of 64 bits\n"),
    )
    with open(os.path.join(state, "jilsdau/client"), "w", encoding="ascii") as it:
        it.write("none\n")
    found = ran([craq, "set", "id", "c"], {**env, "XDG_STATE_HOME": state})
    checks.same(
        "craq set with a file that holds no id",
        found,
        (2, b"", "craq: the file $XDG_STATE_HOME/jilsdau/client holds no client id, a number of 64 bits\n"),
    )
    os.makedirs(os.path.join(state, ".local/state/jilsdau"))
    with open(os.path.join(state, ".local/state/jilsdau/client"), "w", encoding="ascii") as it:
        it.write("-1\n")
    found = ran([craq, "set", "id", "c"], {**env, "HOME": state})
    checks.same(
        "craq set with a file at home that holds no id",
        found,
        (2, b"", "craq: the file ~/.local/state/jilsdau/client holds no client id, a number of 64 bits\n"),
    )
    homeless = {name: it for name, it in env.items() if name != "HOME"}
    checks.same("craq set without a home", ran([craq, "set", "id", "c"], homeless), (0, b"written 4\n", ""))
    checks.same(
        "craq set where no folder can be made",
        ran([craq, "set", "id", "c"], {**env, "HOME": "/dev/null"}),
        (0, b"written 5\n", ""),
    )
    # numbers of which the 8 largest are far above the time
    for at in range(8):
        ran([craq, "--client", "8", "--number", str(2**63 + at), "set", "far", "a"], env)
    found = ran([craq, "--client", "8", "set", "far", "b"], env)
    checks.same("craq set behind far numbers takes a larger one", found, (0, b"written 9\n", ""))
    found = ran([craq, "--client", "8", "--number", "5", "set", "far", "b"], env)
    checks.same("craq set with a small number", found, (5, f"stale {2 ** 63 + 8}\n".encode(), ""))


def wrong(checks, craq, home, nowhere):
    env = environment(home, CRAQ_CONNECT=nowhere)
    for words, wanted in WRONG:
        status, out, err = ran([craq, *words.split(" ")], env)
        checks.that(
            (status, out) == (2, b"") and err.startswith(wanted), f"craq {words[:60]}: {status} {out} {err!r}"
        )
    found = ran([craq, "get", ""], env)
    checks.same("craq get with an empty key", found, (2, b"", KEY_WORDS))
    status, out, err = ran([craq], env)
    checks.that(
        (status, out) == (2, b"")
        and "\nUsage: craq [OPTIONS] [COMMAND]...\n" in err
        and "--chain <NAME>" in err,
        f"craq alone: {status} {out} {err!r}",
    )
    checks.same("craq help", ran([craq, "help"], env), ran([craq, "--help"], env))
    for words in "get a", "watch 1", "shell":
        found = ran([craq, *words.split()], {**env, "CRAQ_CONNECT": "foo"})
        checks.same(
            f"craq {words} with a CRAQ_CONNECT that is none",
            found,
            (
                2,
                b"",
                "craq: the variable CRAQ_CONNECT holds no address: an address is HOST:PORT, "
                "as 127.0.0.1:7000\n",
            ),
        )
    for words in "get a", "set a b", "members", "health":
        found = ran([craq, *words.split()], env)
        checks.same(
            f"craq {words} where nothing listens", found, (4, b"", f"craq: no server answers at {nowhere}\n")
        )
    found = ran([craq, "shell"], env)
    checks.same("craq shell where nothing listens", found, (4, b"", "connection\n"))


def closed_streams(checks, server, craq, home):
    """With a closed standard stream nothing of what is printed goes to the server: a stored frame does
    not run."""
    env = environment(home, CRAQ_CONNECT=server.address)
    put = wire.update_request(1, 0, 4242, 1, wire.put(0, "pwned", b"yes"))
    frame = len(wire.one(1, put)).to_bytes(4, "big") + wire.one(1, put)
    checks.same("a frame as a value", ran([craq, "set", "frame", "-"], env, frame), (0, b"written 1\n", ""))
    for words, status, err in (
        ("get frame >&-", 1, "cannot print\n"),
        ("set closed a >&-", 1, "cannot print\n"),
        ("get frame <&- >&-", 1, "cannot print\n"),
        ("get frame <&- >&- 2>&-", 1, ""),
        ("set closed - <&-", 1, "cannot read\n"),
        ("get frame 2>&- >/dev/null", 0, ""),
        ("get pwned 2>&-", 6, ""),
        ("get pwned <&- 2>&-", 6, ""),
        (f"--connect {server.address} --node 1 put 4711 1 closed b >&-", 1, "cannot print\n"),
    ):
        found = ran(["bash", "-c", f"exec '{craq}' {words}"], env)
        checks.same(f"craq {words}", found, (status, b"", err))
    checks.same("what was stored is no request", ran([craq, "get", "pwned"], env)[0], 6)
    checks.same(
        "the updates",
        ran([craq, "get", "closed", "--json"], env)[1].partition(b',"pass"')[0],
        b'{"reply":"read","version":2,"value":"b"',
    )


def names_first(checks, craqd, craq, home):
    """A word names a chain by its name or, if no chain has that name, by its number."""
    server = running.Server(craqd, running.PLAN.replace('"a"', '"1"').replace('"b"', '"0"'), 0, journal=False)
    try:
        env = environment(home, CRAQ_CONNECT=server.address)
        for program in [craq], [sys.executable, JILSDAU]:
            found = [
                re.findall("node ([0-9]+)", ran([*program, "health", *words], env)[1].decode())
                for words in ([], ["--chain", "1"], ["--chain", "0"])
            ]
            checks.same(
                f"{program}: the members of a chain", found, [["1", "2", "3"], ["1", "2", "3"], ["4", "5"]]
            )
    finally:
        server.kill()


def giving(replies):
    """A server that closes each connection after these replies, one a connection: its address."""
    listener = socket.create_server(("127.0.0.1", 0))

    def give():
        for reply in replies:
            made, _ = listener.accept()
            with made:
                made.settimeout(running.PATIENCE)
                made.recv(4096)
                made.sendall(bytes.fromhex(reply))
        listener.close()

    threading.Thread(target=give, daemon=True).start()
    return f"127.0.0.1:{listener.getsockname()[1]}"


def lost(checks, server, craq, home):
    """Replies that are lost: what is told, and that the told command asks the update again, once."""
    env = environment(home)
    address = giving([""])
    words = ["--connect", address, "--node", "1", "set", "lost", "it's"]
    status, out, err = ran([craq, "--client", "6", *words], env)
    again = re.fullmatch(
        r"craq: the connection to .* broke; a server that is full \(--most\) closes each connection\n"
        "craq: it may have been done. This asks it again, and it is "
        "done once:\n  (craq .*)\n",
        err,
    )
    checks.that((status, out) == (4, b"") and again, f"a lost reply: {status} {out} {err!r}")
    if not again:
        return
    line = again[1].replace(address, server.address)
    for _ in range(2):
        found = subprocess.run(
            line,
            shell=True,
            capture_output=True,
            timeout=running.PATIENCE,
            check=False,
            env={**env, "PATH": os.path.dirname(craq) + ":" + os.environ["PATH"]},
        )
        checks.same(line, (found.returncode, found.stdout, found.stderr), (0, b"written 1\n", b""))
    checks.same(
        "the update that was asked again",
        ran([craq, "--connect", server.address, "get", "lost"], env),
        (0, b"it's", ""),
    )
    address = giving(["0000000b 0103 0e 0000000000000000"])
    status, out, err = ran([craq, "--connect", address, "--node", "1", "set", "lost", "a"], env)
    checks.that(
        status == 3 and err.startswith("craq: refused 14: out of memory\ncraq: it may have been done."),
        f"a server without memory: {status} {err!r}",
    )
    found = ran([craq, "--connect", giving([""]), "--node", "1", "get", "lost"], env)
    checks.that(found[0] == 4 and "may have been done" not in found[2], f"a lost read: {found}")


def turned_away(checks, craq):
    """A watch asks again while the server closes each connection, and ends once no server is there."""
    status = running.STATUS.encode()
    status = b"\x01\x04" + len(status).to_bytes(4, "big") + status
    told = (len(status).to_bytes(4, "big") + status).hex()
    found = running.ended([craq, "--connect", giving(["", "", told]), "watch"])
    checks.same("craq watch at a server that is full", found, (4, running.STATUS + "\n", "connection\n"))
    page = b'HTTP/1.1 200 OK\r\n\r\n{"chains":[{"name":"a","epoch":1,"nodes":[]}]}'.hex()
    found = running.ended([craq, "watch", "--metrics", giving(["", page])])
    checks.same(
        "craq watch --metrics at a server that is full", found, (4, "chain a, epoch 1\n", "connection\n")
    )


def prompt(checks, server, craq, home):
    """Verbs in a prompt."""
    env = environment(home, CRAQ_CONNECT=server.address)
    lines = "".join(line + "\n" for line, _, _ in ENTERED)
    wanted = "".join(answer + "\n" for _, answer, _ in ENTERED if answer is not None)
    told = "".join(it + "\n" for _, _, it in ENTERED if it is not None)
    status, out, err = ran([craq, "shell"], env, lines.encode())
    checks.same(
        "craq shell with verbs",
        (status, without_numbers(out.decode()), err),
        (0, without_numbers(wanted.replace("get k --print-pass", "")), told),
    )


def prompt_values(checks, server, craq, home):
    """The help has all verbs."""
    env = environment(home, CRAQ_CONNECT=server.address)
    status, out, err = ran([craq, "shell"], env, b"help\n")
    missing = [
        it
        for it in "set get cas append prepend add sub txn members health put read".split()
        if it not in out.decode()
    ]
    checks.same("craq shell: help has the verbs", (status, missing, err), (0, [], ""))


def one_connection(checks, craqd, craq, home):
    """A prompt makes one connection: the server, which ends after one, answers each line."""
    server = running.Server(craqd, running.PLAN, 1)
    try:
        env = environment(home, CRAQ_CONNECT=server.address)
        found = ran(
            [craq, "--node", "1", "shell"], env, b"set k a\nget k --hex\nput 1 1 k b\nread strong k\n"
        )
        checks.same(
            "craq shell over one connection", found, (0, b"written 1\n61\nwritten 2\nread 2 0x62\n", "")
        )
        server.counts()
        server.answers(0, 4)
        out, _ = server.process.communicate(timeout=running.PATIENCE)
        checks.same("its audit", out.decode(), "audit merged 4\naudit merged 0\n")
    finally:
        server.kill()


def all_of(checks, craqd, craq, nowhere):
    with tempfile.TemporaryDirectory(prefix="end-to-end-") as home:
        checks.part("wrong words", wrong, craq, home, nowhere)
        server = running.Server(craqd, running.PLAN, 0, journal=False)
        try:
            for part in verbs, values, ids, closed_streams, lost, prompt, prompt_values:
                checks.part(part.__name__, part, server, craq, home)
        finally:
            server.kill()
        checks.part("one connection", one_connection, craqd, craq, home)
        checks.part("a server that is full", turned_away, craq)
        checks.part("names that are numbers", names_first, craqd, craq, home)
        checks.part("the command in Python", in_python, craqd, home)
