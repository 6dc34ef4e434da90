"""Tests the clients of clients/: in Python and, if there is a C compiler cc, in C.

    tools/clients/run                        against servers that it plays, and no store
    tools/clients/run CRAQD [OPTION ..]      against a store too, with these options of craqd

clients/cases.json has to be what docs/use/BYTES.md says. Each client sends the bytes of each case,
and returns what the reply says. At the store it makes the calls of `store` there, and the audit at
the end has to be merged. The package for pip is packed and compared with its sources. The last line is
'clients: N passed, M failed', and the status is 1 if a check failed.
"""
import json
import os
import re
import shutil
import socket
import subprocess
import sys
import tempfile
import threading
import zipfile

import packing
from jilsdau.connection import Connection

from tools import repository
from tools.checks import Checks
from tools.clients import cases, drivers, python_client
from tools.end_to_end import running

# The client's id in the cases, which the bytes have, and those at the store.
ID, AT_STORE = 1, 1000
MOST_LINES = 400


def table():
    with open(cases.FILE, encoding="utf-8") as it:
        return json.load(it)


class Expects:
    """A server of one connection: it takes one frame, sends the bytes of a reply, and ends."""

    def __init__(self, reply):
        self.reply, self.request = bytes.fromhex(reply), b""
        self.listener = socket.create_server(("127.0.0.1", 0))
        self.address = f"127.0.0.1:{self.listener.getsockname()[1]}"
        self.thread = threading.Thread(target=self.serve, daemon=True)
        self.thread.start()

    def serve(self):
        made, _ = self.listener.accept()
        made.settimeout(python_client.PATIENCE)
        with made:
            try:
                payload = Connection.over(made).receive()
                self.request = len(payload).to_bytes(4, "big") + payload
                made.sendall(self.reply)
                made.shutdown(socket.SHUT_WR)
                made.recv(1)
            except OSError:
                pass

    def close(self):
        self.thread.join(python_client.PATIENCE)
        self.listener.close()


def offline(checks, client):
    """Sends the bytes of each case, and returns what the reply says."""
    for it in table()["bytes"]:
        server = Expects(it["reply"])
        store = client(server.address, ID, it["pass"])
        told, shown = store.asks(it["call"])
        store.close()
        server.close()
        what = f"{client.__name__}: {it['name']}"
        checks.same(f"{what}: bytes", server.request.hex(), it["request"])
        checks.same(what, (told, shown), (it["result"], it["pass_after"]))


def at_store(checks, client, server, id):
    """Makes the calls of the table at a store, as a client that it does not know."""
    server.counts()
    store, last = client(server.address, id, 0), 0
    for call, wanted in table()["store"]:
        told, shown = store.asks(call.replace("{}", client.__name__))
        checks.same(f"{client.__name__} at a store: {call[:60]}", told, wanted)
        checks.that(shown is not None and shown >= last,
                    f"{client.__name__}: its pass rises: {last}, {shown}")
        last = shown or last
        for asked, result in zip(call.split(" ; "), wanted.split(" ; ")):
            if not result.startswith(("refused", "status")):
                words = asked.split()
                server.answers(int(words[4 if words[0] == "update" else 3]))
    store.close()


def example(checks, folder, server):
    """Runs the example in C."""
    server.counts()
    status, out, err = running.ended([os.path.join(folder, "example"), "127.0.0.1", str(server.port)])
    wanted = r"status \{.*\}\nupdate 1 1\nread 1 blue\nupdate 1 2\nread 2 red\n"
    checks.that(re.fullmatch(wanted, out) and (status, err) == (0, ""),
                f"the example in C: {status} {out!r} {err!r}")
    server.answers(0, 4)


def served(checks, clients, craqd, folder):
    """Tries the clients at a store, and looks at its audits."""
    server = running.Server(craqd, running.PLAN, len(clients) + (drivers.C in clients) + 1)
    try:
        for at, client in enumerate(clients):
            checks.part(f"{client.__name__} at a store", at_store, client, server, AT_STORE + at)
        if drivers.C in clients:
            checks.part("the example in C", example, folder, server)
        server.finish(checks, "craqd --journal",
                      "".join(f"audit merged {server.answered.get(chain, 0)}\n" for chain in (0, 1)))
    finally:
        server.kill()


def packed(checks, folder):
    """The wheel has the package's files, and the version of pyproject.toml; pip needs nothing to make it."""
    with open(repository.path("clients", "python", "pyproject.toml"), encoding="utf-8") as it:
        told = it.read()
    checks.that(f'name = "{packing.NAME}"\nversion = "{packing.VERSION}"\n' in told
                and "requires = []" in told, "pyproject.toml")
    ran = subprocess.run([sys.executable, "-B", repository.path("clients", "python", "jilsdau"), "--version"],
                         capture_output=True, text=True)
    checks.same("the version that the command tells", ran.stdout, f"jilsdau {packing.VERSION}\n")
    made = packing.build_wheel(folder)
    with zipfile.ZipFile(os.path.join(folder, made)) as wheel:
        wheel.extractall(os.path.join(folder, "installed"))
    code = "import jilsdau; print(jilsdau.__version__, jilsdau.Client('127.0.0.1:1', client=1).id)"
    ran = subprocess.run([sys.executable, "-E", "-c", code], cwd=os.path.join(folder, "installed"),
                         capture_output=True, text=True)
    checks.same("the package of the wheel", (ran.stdout, ran.stderr), (f"{packing.VERSION} 1\n", ""))


def headers(checks, folder):
    """Checks that the header in C has fewer than 400 lines, and compiles without a warning. Returns
    the tested clients in words."""
    with open(repository.path("clients", "c", "jilsdau.h"), encoding="utf-8") as it:
        lines = it.read().count("\n")
    checks.that(lines < MOST_LINES, f"the header has {lines} lines")
    if not shutil.which("cc"):
        print("clients: there is no C compiler cc, so the client in C is not tested", file=sys.stderr)
        return [drivers.Python]
    checks.same("what cc says of the client in C", drivers.C.build("cc", folder), "")
    return [drivers.Python, drivers.C]


def main():
    if any(it in ("-h", "--help") for it in sys.argv[1:]):
        print(__doc__)
        return 0
    checks = Checks("clients")
    running.OPTIONS[:] = sys.argv[2:]
    with tempfile.TemporaryDirectory(prefix="clients-") as folder:
        checks.that(cases.is_current(),
                    "clients/cases.json is what docs/use/BYTES.md says (tools.clients.cases --write)")
        clients = checks.part("the header in C", headers, folder) or [drivers.Python]
        checks.part("the package", packed, folder)
        python_client.tried(checks)
        for client in clients:
            checks.part(f"cases of {client.__name__}", offline, client)
        if len(sys.argv) > 1:
            checks.part("a store", served, clients, os.path.realpath(sys.argv[1]), folder)
    print(f"clients: {checks.passed} passed, {checks.failed} failed")
    return 1 if checks.failed else 0


if __name__ == "__main__":
    sys.exit(main())
