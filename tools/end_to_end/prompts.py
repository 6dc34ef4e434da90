"""craq as a prompt, as a watch and as a load, at a server of their own. Texts are written from
docs/use/CRAQ.md."""
import re
import subprocess

from tools.end_to_end import running

# Each row: the line that is entered, its reply, and its text on standard error.
ENTERED = [
    ("put 7 1 k a", "written 1", None),
    ("  node   3 ", None, None),
    ("read strong k", "read 1 0x61", None),
    ("", None, None),
    ("put 7 2 k b", "refused 9 1", "craq: updates go to the head of the chain, node 1"),
    (
        "put 7 x k b",
        None,
        "error: expected NUMBER, a number of 64 bits in decimal digits without leading zeros, and found 'x'",
    ),
    ("deliver 1", None, "error: expected a command, as put, read, status or help, and found 'deliver'"),
    ("watch", None, "error: expected a command, as put, read, status or help, and found 'watch'"),
    ("!1", "refused 9 1", "craq: updates go to the head of the chain, node 1"),
    ("node 1", None, None),
    ("!1", "written 1", None),
    ("!99", None, "error: there is no such line in the history"),
    ("!0", None, "error: there is no such line in the history"),
    ("quit now", None, "error: expected no more words, and found 'now'"),
    ("history 3", None, "error: expected no more words, and found '3'"),
    ("node", None, "error: expected node N"),
    ("node 01", None, "error: expected node N with a number of 32 bits"),
    ("status", running.STATUS, None),
    (f"put 7 2 k {'v' * 4097}", "refused 2", "craq: a value has at most 4096 bytes"),
    (
        "put 7 2 k é",
        None,
        "error: expected VALUE, printable ASCII without blanks, or 0x and pairs of hexadecimal digits in "
        "lower case, and found 'é'",
    ),
    ("read eventual k", "read 1 0x61", None),
]
HISTORY = ["put 7 1 k a", "node   3", "read strong k"]


def command(server, craq, *words):
    return [craq, "--connect", server.address, "--node", "1", *words]


def entered(words, text):
    ran = subprocess.run(words, input=text.encode(), capture_output=True, timeout=running.PATIENCE)
    return ran.returncode, ran.stdout.decode(), ran.stderr.decode()


def prompt(checks, server, craq):
    lines = "".join(line + "\n" for line, _, _ in ENTERED)
    out = "".join(answer + "\n" for _, answer, _ in ENTERED if answer is not None)
    err = "".join(told + "\n" for _, _, told in ENTERED if told is not None)
    checks.same("craq shell", entered(command(server, craq, "shell"), lines), (0, out, err))
    status, out, err = entered(command(server, craq), "read strong k\npass\nread strong k\npass\n")
    passes = list(map(int, re.findall(r"^pass ([1-9][0-9]*)$", out, re.M)))
    checks.that(
        status == 0 and len(passes) == 2 and passes[0] < passes[1],
        f"craq without a command: the pass rises: {out!r} {err!r}",
    )
    found = entered(command(server, craq), "\n".join(HISTORY) + "\nhistory\nquit\nread strong k\n")
    listed = "".join(f"{at + 1:>5}  {line}\n" for at, line in enumerate(HISTORY))
    checks.that(found[0] == 0 and found[1].endswith(listed), f"craq shell: its history, and its end: {found}")
    found = subprocess.run(
        command(server, craq), input=b"\xff\nread eventual k\n", capture_output=True, timeout=running.PATIENCE
    )
    checks.same(
        "craq shell: a line that is no text",
        (found.returncode, found.stdout[:5], found.stderr),
        (0, b"read ", b"error: the line is not text in UTF-8\n"),
    )
    status, out, err = entered(command(server, craq), "help")
    missing = [
        it
        for it in "put tas append prepend inc dec mini read status node pass history help quit".split()
        if it not in out
    ]
    checks.same("craq shell: help", (status, missing, err), (0, [], ""))
    found = running.unheard(command(server, craq, "status"))
    checks.same("craq that cannot print", found, (1, "cannot print\n"))


def watch(checks, server, craq):
    checks.same(
        "craq watch 1", running.ended(command(server, craq, "watch", "1")), (0, running.STATUS + "\n", "")
    )


def load(checks, server, craq):
    for node, reads, answered, refused in (
        (1, 50, "both", "none"),
        (2, 50, "reads", "puts"),
        (3, 100, "reads", "none"),
    ):
        status, out, err = running.ended(
            [craq, "--connect", server.address, "--node", str(node), "bench", "4", "1", str(reads)]
        )
        rows = re.findall(r"^(strong read|put) +([0-9]+) +([0-9]+) +([0-9]+)((?: +[0-9]+){4})$", out, re.M)
        what = f"craq --node {node} bench 4 1 {reads}"
        checks.that(
            (status, err, [row[0] for row in rows]) == (0, "", ["strong read", "put"]),
            f"{what}: {status} {out!r} {err!r}",
        )
        if len(rows) != 2:
            continue
        some = [name for name, row in zip(("reads", "puts"), rows) if int(row[1])]
        checks.same(f"{what}: answered", "both" if len(some) == 2 else "".join(some), answered)
        checks.same(
            f"{what}: refused",
            "".join(name for name, row in zip(("reads", "puts"), rows) if int(row[3])) or "none",
            refused,
        )
        for row in rows:
            times = list(map(int, row[4].split()))
            checks.that(times == sorted(times), f"{what}: the times rise: {times}")


def gone(checks, server, craq):
    """Checks that a watch ends with a message when the server is gone. Ends the server."""
    watching = subprocess.Popen(
        command(server, craq, "watch"),
        stdin=subprocess.DEVNULL,
        stdout=subprocess.PIPE,
        stderr=subprocess.PIPE,
    )
    first = watching.stdout.readline().decode()
    server.kill()
    try:
        out, err = watching.communicate(timeout=running.PATIENCE)
        found = (watching.returncode, first + out.decode(), err.decode())
    except subprocess.TimeoutExpired:
        watching.kill()
        found = "no end"
    checks.same("craq watch where the server goes", found, (4, running.STATUS + "\n", "connection\n"))


def all_of(checks, craqd, craq):
    server = running.Server(craqd, running.PLAN, 0, journal=False)
    try:
        for part in prompt, watch, load, gone:
            checks.part(part.__name__, part, server, craq)
    finally:
        server.kill()
