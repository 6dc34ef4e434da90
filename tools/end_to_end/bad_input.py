"""Bytes that are no requests, and clients that do not take part: the server goes on serving the others.

Bytes are written from docs/use/BYTES.md.
"""
import random
import socket
import struct
import subprocess

from tools.end_to_end import running
from tools.sockets import framed, read_to_end as rest, read_up_to as taken

PUT = bytes.fromhex("0101 00000001 0000000000000000 00000000000000ff 0000000000000001 01 0000 016b 000161")
READ = bytes.fromhex("0102 00000003 0000000000000000 01 0000 016b")
STATUS = bytes.fromhex("0103")
NO_REQUEST = bytes.fromhex("0000000b 0103 0f 0000000000000000")
TOO_LONG = bytes.fromhex("0000000b 0103 10 0000000000000000")
LIMIT = 1_048_576

# Payloads that are no requests.
NOTHING = {
    "nothing": "",
    "version 1 with Many": "0104 01 03",
    "Many of nothing": "0204 00",
    "Many of nine": "0204 09 " + "03" * 9,
    "Many with one less than it says": "0204 02 03",
    "Many with one more than it says": "0204 01 03 03",
    "Many in Many": "0204 01 04 01 03",
    "Many with a bad second request": "0204 02 03 02 00000003 0000000000000000 04 0000 016b",
    "a status with a byte more": "0103 00",
    "an update with number 0": "0101 00000001 0000000000000000 00000000000000ff "
    "0000000000000000 01 0000 016b 000161",
    "command 0": "0101 00000001 0000000000000000 00000000000000ff 0000000000000001 00 0000 016b 000161",
    "command 8": "0101 00000001 0000000000000000 00000000000000ff 0000000000000001 08 0000 016b 000161",
    "an empty key": "0102 00000003 0000000000000000 01 0000 00",
    "a key of 129": "0102 00000003 0000000000000000 01 0000 81" + "6b" * 129,
    "a value of 4,097": "0101 00000001 0000000000000000 00000000000000ff 0000000000000001 01 0000 016b 1001"
    + "61" * 4097,
    "a value longer than what is there": "0101 00000001 0000000000000000 00000000000000ff "
    "0000000000000001 01 0000 016b ffff61",
    "mode 0": "0102 00000003 0000000000000000 00 0000 016b",
    "mode 4": "0102 00000003 0000000000000000 04 0000 016b",
    "a bound without its number": "0102 00000003 0000000000000000 03 0000 016b",
    "an empty transaction": "0101 00000001 0000000000000000 00000000000000ff 0000000000000001 07 00 00 00",
    "a transaction with an object twice": "0101 00000001 0000000000000000 00000000000000ff "
    "0000000000000001 07 00 02 0000 016b 0000 016b 00",
    "a list of 17": "0101 00000001 0000000000000000 00000000000000ff 0000000000000001 07 00 11"
    + "".join(f"0000 01{i:02x}" for i in range(17))
    + "00",
    "a list of 255 that is not there": "0101 00000001 0000000000000000 00000000000000ff "
    "0000000000000001 07 ff",
}


def said_to(server, sent):
    """Returns all that the server sends for these bytes and their end."""
    with server.connect() as made:
        made.sendall(sent)
        made.shutdown(socket.SHUT_WR)
        return rest(made)


def serves(checks, server, what):
    """Another client asks, and gets its reply."""
    with server.connect() as made:
        made.sendall(framed(STATUS))
        found = taken(made, 4 + 6 + len(running.STATUS))
    checks.same(what, found, framed(bytes.fromhex("0104") + framed(running.STATUS.encode())))


def closed_streams(checks, craqd):
    """A craqd with closed standard streams: no line of its log goes to a client."""
    wanted = framed(bytes.fromhex("0104") + framed(running.STATUS.encode())) * 2
    for closed in "<&-", "2>&-", "<&- 2>&-":
        with running.text_file(running.PLAN) as file:
            words = " ".join(
                [craqd, "--log", "--connections", "2", *running.OPTIONS, file.name, "127.0.0.1:0"]
            )
            with subprocess.Popen(
                ["bash", "-c", f"exec {words} {closed}"], stdout=subprocess.PIPE, stderr=subprocess.DEVNULL
            ) as process:
                port = int(process.stdout.readline().split()[1])
                for _ in range(2):
                    with socket.create_connection(("127.0.0.1", port), running.PATIENCE) as made:
                        made.sendall(framed(STATUS, STATUS))
                        made.shutdown(socket.SHUT_WR)
                        checks.same(f"the replies of a craqd with {closed}", rest(made), wanted)
                checks.same(f"the end of a craqd with {closed}", process.wait(running.PATIENCE), 0)
    with running.text_file(running.PLAN) as file:
        found = running.ended(["bash", "-c", f"exec {craqd} {file.name} 127.0.0.1:0 >&-"])
        checks.same(
            "a craqd without standard output", (found[0], found[2].splitlines()[-1:]), (1, ["cannot print"])
        )


def no_requests(checks, server):
    """Each is answered by itself, and a good request after it as ever."""
    bad = [bytes.fromhex(it) for it in NOTHING.values()]
    bad += [payload[:size] for payload in (PUT, READ, STATUS) for size in range(len(payload))]
    bad += [
        bytes([version]) + payload[1:]
        for payload in (PUT, READ, STATUS)
        for version in range(256)
        if version not in (1, 2)
    ]
    bad += [bytes([version, kind]) + READ[2:] for version in (1, 2) for kind in (0, 3, 4, 5, 6, 255)]
    bad += [b"\0" * LIMIT, random.Random(1).randbytes(LIMIT)]
    good = framed(bytes.fromhex("0104") + framed(running.STATUS.encode()))
    with server.connect() as made:
        for payload in bad:
            made.sendall(framed(payload, STATUS))
            found = taken(made, len(NO_REQUEST) + len(good))
            checks.same(f"no request, {payload[:40].hex()}", found, NO_REQUEST + good)
    sent = b"".join(framed(it, STATUS) for it in bad[:300])
    checks.same("many of them at once", said_to(server, sent), (NO_REQUEST + good) * 300)


def cuts(checks, server):
    """A connection that ends inside a frame ends without a reply to it."""
    frame = framed(PUT)
    for size in range(len(frame)):
        checks.same(f"a put cut after {size} bytes", said_to(server, frame[:size]), b"")
    checks.same("a length above what comes", said_to(server, bytes.fromhex("00100000") + PUT), b"")
    checks.same("a length above the limit", said_to(server, bytes.fromhex("00100001")), TOO_LONG)
    checks.same("the greatest length", said_to(server, b"\xff" * 64), TOO_LONG)
    checks.same("a length below what comes", said_to(server, bytes.fromhex("00000025") + PUT), NO_REQUEST)
    checks.same("nothing at all", said_to(server, b""), b"")


def waiting(server, count):
    """Connections in the middle of a frame, with what each has still to send."""
    frame = framed(READ)
    made = [(server.connect(), 1 + at % (len(frame) - 1)) for at in range(count)]
    for connection, size in made:
        connection.sendall(frame[:size])
    return [(connection, frame[size:]) for connection, size in made]


def go_on(checks, server, connections):
    """Those that waited send the rest of their frame, and get their reply."""
    for connection, left in connections:
        with connection:
            connection.sendall(left)
            kind = taken(connection, 6)[4:]
            checks.same("a client that waited in its frame", kind, bytes.fromhex("0102"))
            server.answers(0)


def never_reads(checks, server):
    """A client that asks and does not read: the server stops taking bytes of it, and serves the
    others."""
    with server.connect() as made:
        made.setsockopt(socket.SOL_SOCKET, socket.SO_RCVBUF, 4096)
        made.settimeout(1)
        asks, sent = framed(STATUS) * 10_000, 0
        try:
            while sent < 200 << 20:
                sent += made.send(asks)
        except TimeoutError:
            pass
        checks.that(sent < 200 << 20, f"a client that never reads is not read for ever: {sent} bytes")
        serves(checks, server, "while a client does not read")


def garbage_of(draw):
    """Bytes that are no request, and what is said to them: none, since they end in a frame, or a refusal."""
    pick = draw.randrange(4)
    if pick == 0:
        return bytes([draw.randrange(1, 256)]) + draw.randbytes(draw.randrange(3, 200)), TOO_LONG
    if pick == 1:
        return framed(b"\x07" + draw.randbytes(draw.randrange(1, 3000))), NO_REQUEST
    if pick == 2:
        return framed(READ)[: draw.randrange(4, 20)], b""
    return b"GET / HTTP/1.1\r\nHost: localhost\r\n\r\n", TOO_LONG


def garbage(checks, server, count):
    """Opens `count` connections that send garbage, some of them at once; resets every third without a
    word."""
    draw = random.Random(2)
    for first in range(0, count, 100):
        some = [(server.connect(), *garbage_of(draw)) for _ in range(min(100, count - first))]
        for made, sent, _ in some:
            made.sendall(sent)
        for at, (made, sent, wanted) in enumerate(some):
            if at % 3 == 0:
                made.setsockopt(socket.SOL_SOCKET, socket.SO_LINGER, struct.pack("ii", 1, 0))
            else:
                made.shutdown(socket.SHUT_WR)
                checks.same(f"garbage {sent[:20].hex()}", rest(made)[: len(TOO_LONG)], wanted)
            made.close()
        serves(checks, server, f"after {first + 100} connections with garbage")


def too_many(checks, craqd):
    """More connections than the server may have: those beyond wait until others end."""
    server = running.Server(craqd, running.PLAN, 101, journal=False, files=50)
    try:
        some = [server.connect() for _ in range(100)]
        for made in some:
            made.sendall(framed(STATUS))
        kept = 0
        for made in some:
            kept += taken(made, 6)[4:] == bytes.fromhex("0104")
            made.close()
        checks.same("of more connections than a server may have, replies", kept, 100)
        server.finish(checks, "a server with more connections than it may have", "")
    finally:
        server.kill()


def slowly(checks, server):
    """A frame that comes byte by byte is a frame."""
    with server.connect() as made:
        for byte in framed(STATUS) * 3 + framed(b""):
            made.sendall(bytes([byte]))
        made.shutdown(socket.SHUT_WR)
        good = framed(bytes.fromhex("0104") + framed(running.STATUS.encode()))
        checks.same("frames that come byte by byte", rest(made), good * 3 + NO_REQUEST)
