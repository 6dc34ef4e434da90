"""Measures the memory that a craqd keeps of clients, of waiting updates and of journals.

    benchmarks/memory/measure CRAQD

CRAQD is the program. Each figure is the growth of resident memory of a fresh server with one chain
of three nodes, all in one process, divided by the number of its cause and by three replicas:

- an object with a 16-byte key and a 16-byte value, put by one client;
- a client that made one put: its number and its reply are kept, so that a retry is answered;
- a put that waits at the head, while the tail has stopped and is not removed yet;
- a put in a server with journals: the growth is that of all three journals together.
"""
import argparse
import os
import subprocess
import sys
import tempfile
from types import SimpleNamespace

from benchmarks.server import servers
from tools.plain_client import EVENTUAL, Connection, one, put, read_request, update_request

REPLICAS = 3
# Puts that are under way together.
TOGETHER = 64
OBJECTS, CLIENTS, WAITING, JOURNALED = 200_000, 200_000, 1_000, 50_000


def request(client, number, key, value):
    """Returns the payload of a put at the head."""
    return one(1, update_request(1, 0, client, number, put(0, key, value)))


def sent(connection, payloads):
    """Sends requests, some together, and takes their replies."""
    for at in range(0, len(payloads), TOGETHER):
        part = payloads[at:at + TOGETHER]
        connection.send(*part)
        for _ in part:
            connection.receive()


def key(at):
    return b"key%013d" % at


def value(at):
    return b"value%011d" % at


def growth(server, payloads):
    """Returns the bytes by which a server grows with these requests."""
    connection = Connection(server.address)
    sent(connection, [request(1, number, key(0), value(0)) for number in range(1, 1_001)])
    before = server.bytes()
    sent(connection, payloads)
    grown = server.bytes() - before
    connection.close()
    return grown


def of_objects(server):
    return growth(server, [request(2, at, key(at), value(at)) for at in range(1, OBJECTS + 1)]) / OBJECTS


def of_clients(server):
    return growth(server, [request(at, 1, key(0), value(0)) for at in range(3, CLIENTS + 3)]) / CLIENTS


def of_journals(server):
    return growth(server, [request(2, at, key(0), value(at)) for at in range(1, JOURNALED + 1)]) / JOURNALED


def stopped_tail(options, folder):
    """Starts a server of one chain whose tail has stopped. Returns it with connections that have
    read once, so that their buffers are there."""
    plan = os.path.join(folder, "plan.toml")
    with open(plan, "w", encoding="utf-8") as it:
        it.write('[[chain]]\nname = "a"\nnodes = [1, 2, 3]\n')
    words = [os.path.realpath(options.craqd), "--control", "--threads", "2", plan, "127.0.0.1:0"]
    process = subprocess.Popen(words, stdin=subprocess.PIPE, stdout=subprocess.PIPE,
                               stderr=subprocess.PIPE, text=True, env=servers.AS_SERVED | os.environ)
    server = servers.Server(process, int(process.stdout.readline().split()[-1]), "craq")
    connections = [Connection(server.address) for _ in range(WAITING)]
    for it in connections:
        sent(it, [one(1, read_request(1, 0, EVENTUAL, 0, key(0)))])
    process.stdin.write("stop a/3\n")
    process.stdin.flush()
    while process.stderr.readline() != "a/3 stopped\n":
        pass
    return server, connections


def of_waiting(options, folder):
    """Returns the bytes of a put that waits at the head and at the node after it."""
    server, connections = stopped_tail(options, folder)
    before = server.bytes()
    for at, it in enumerate(connections):
        it.send(request(at + 2, 1, key(0), value(at)))
    connections[0].socket.settimeout(1)
    try:
        connections[0].receive()
        sys.exit("measure: a put did not wait")
    except TimeoutError:
        return (server.bytes() - before) / WAITING
    finally:
        server.kill()


def served(options, folder, measured):
    """Starts a server, measures, and ends it."""
    server = servers.craqd(options, folder, 2)
    try:
        return measured(server)
    finally:
        server.kill()


def main():
    parser = argparse.ArgumentParser(prog="measure", description=__doc__.partition("\n")[0])
    parser.add_argument("craqd", metavar="CRAQD")
    given = parser.parse_args()
    plain = SimpleNamespace(craqd=given.craqd, chains=1, journal=False)
    journal = SimpleNamespace(craqd=given.craqd, chains=1, journal=True)
    print("| Kept | Bytes a replica |\n|---|---|")
    with tempfile.TemporaryDirectory() as folder:
        print(f"| an object | {served(plain, folder, of_objects) / REPLICAS:,.0f} |", flush=True)
        of_one = served(plain, folder, of_clients) / REPLICAS
        print(f"| a client with one reply | {of_one:,.0f} |", flush=True)
        print(f"| a put that waits | {of_waiting(plain, folder) / (REPLICAS - 1):,.0f} |", flush=True)
        print(f"| a put in a journal | {served(journal, folder, of_journals) / REPLICAS:,.0f} |", flush=True)


if __name__ == "__main__":
    main()
