"""The programs under valgrind, Debian's package: the worked scripts with either core, and a server
under load for a minute, in each way of serving.

It reports what is read or written where nothing may be, what is used without a value, and what is
lost to all: none of these. Where it is not installed the part is left out, and says so.
"""
import os
import random
import shutil
import subprocess
import tempfile
import time

from tools.end_to_end import running
from tools.hostile import asked, attack, every_stop
from tools.rows import playing
from tools.sockets import framed

WORDS = ("valgrind", "-q", "--error-exitcode=9", "--leak-check=full", "--show-leak-kinds=definite",
         "--errors-for-leak-kinds=definite")
CONNECTIONS, PATIENCE = 200, 900


def scripts(checks, craq_lab):
    """Plays each stored script with each core. Returns the number of plays."""
    cases = [(name, nodes, script, expected, core) for name, nodes, script, expected in every_stop.stored()
             for core in playing.CORES]

    def play(case):
        _, nodes, script, _, core = case
        words = [*WORDS, craq_lab, *playing.with_core(["play", "--nodes", str(nodes), "/dev/stdin"], core)]
        ran = subprocess.run(words, input=script, capture_output=True, timeout=PATIENCE)
        return playing.Told(ran.returncode, ran.stdout, ran.stderr)

    for (name, _, _, expected, core), told in zip(cases, playing.side_by_side(play, cases)):
        checks.same(f"{name} with {core} under valgrind", told, playing.Told(0, expected, b""))
    return len(cases)


def load(checks, server, seconds):
    """Asks of one client, and random frames of another that comes anew now and then; gives how many
    asks there were."""
    other, draw, requests, made = attack.Other(server), random.Random(5), asked.requests(), 0
    until = time.monotonic() + seconds
    while time.monotonic() < until and server.left > 2:
        with server.connect() as frames:
            for _ in range(50):
                checks.that(other.is_answered(), "another client is answered under valgrind")
                payload = attack.drawn(draw, requests)
                frames.sendall(framed(payload))
                said = attack.taken(frames, int.from_bytes(attack.taken(frames, 4), "big"))
                checks.that(asked.is_reply(said, payload),
                            f"{payload[:80].hex()} under valgrind: found {said[:80].hex()}")
                made += 3
    other.client.close()
    return made


def served(checks, craqd, seconds):
    """Puts a server under load. Returns the number of asks."""
    with tempfile.NamedTemporaryFile("w", suffix=".sh", delete=False) as it:
        it.write(f'#!/bin/sh\nexec {" ".join(WORDS)} {craqd} "$@"\n')
    os.chmod(it.name, 0o700)
    server = running.Server(it.name, running.PLAN, CONNECTIONS, journal=False)
    try:
        server.counts()
        made = load(checks, server, seconds)
        server.finish(checks, "craqd under valgrind", "")
        return made
    finally:
        server.kill()
        os.unlink(it.name)


def tried(checks, craq_lab, craqd, seconds=60):
    """Runs both parts, and returns what was tried, in words."""
    if not shutil.which(WORDS[0]):
        return "left out: valgrind is not installed"
    played = scripts(checks, craq_lab)
    return f"{played} scripts; " + running.in_each_way(checks, lambda: f"{served(checks, craqd, seconds)} "
                                                       f"requests to a server in {seconds} s")
