"""Tries the two programs from end to end: craqd as a process, craq and other clients against it.

    tools/end_to_end/run CRAQD CRAQ [OPTION ..]     the programs, as the gate or ./build made them, and
                                                    options of craqd for each server that is tried, as
                                                    --threads 2

The last line is 'end to end: N passed, M failed, in S s', and the status 1 where a check failed.
"""
import os
import sys
import time

from tools.checks import Checks
from tools.end_to_end import (
    bad_input,
    clients,
    commands,
    control,
    endings,
    faults,
    human,
    late,
    limits,
    metrics,
    peers,
    prompts,
    running,
    signals,
)
from tools.sockets import free_port

CONNECTIONS, GARBAGE, WAITING = 1_600, 1_000, 20
# In a second in which nobody asks a store ticks 20 times, at seven threads.
IDLE_SECONDS, IDLE_LIMIT = 1, 0.2


def idle(checks, server):
    before = server.seconds()
    time.sleep(IDLE_SECONDS)
    spent = server.seconds() - before
    checks.that(
        spent <= IDLE_LIMIT,
        f"a store that nobody asks takes {spent:.2f} s of a processor in {IDLE_SECONDS} s",
    )


def hostile(checks, server):
    """Clients that do harm, beside some that wait in the middle of a frame all the while."""
    before = server.memory()
    halves = bad_input.waiting(server, WAITING)
    checks.part("no requests", bad_input.no_requests, server)
    checks.part("cuts", bad_input.cuts, server)
    checks.part("a slow client", bad_input.slowly, server)
    checks.part("a client that never reads", bad_input.never_reads, server)
    checks.part("garbage", bad_input.garbage, server, GARBAGE)
    grown = server.memory() - before
    checks.that(grown < 100, f"such clients cost no memory that stays: {grown:.0f} MiB")
    bad_input.go_on(checks, server, halves)


def served(checks, craqd, craq):
    """Runs all checks of one server, and then its audit."""
    server = running.Server(craqd, running.PLAN, CONNECTIONS)
    try:
        checks.that(server.port, f"craqd tells where it listens: {server.first!r}")
        checks.part("craq", commands.rows, server, craq)
        checks.part("a store that nobody asks", idle, server)
        for version in 1, 2:
            for chain in 0, 1:
                checks.part("the client's calls", clients.calls, server, version, chain)
        checks.part("batches", clients.batches, server)
        checks.part("requests that do not wait", clients.pipeline, server)
        checks.part("clients at once", clients.at_once, server)
        checks.part("updates that go together", clients.updates_together, server)
        checks.part("faults of craqd", faults.plans, craqd, server.address)
        checks.part("hostile clients", hostile, server)
        checks.part("lost replies", clients.lost_replies, server)
        checks.part("the command in Python", clients.worded, server)
        audits = "".join(f"audit merged {server.answered.get(chain, 0)}\n" for chain in (0, 1))
        server.finish(checks, "craqd --journal", audits)
    finally:
        server.kill()


def main():
    if len(sys.argv) < 3:
        print(__doc__, file=sys.stderr)
        return 2
    craqd, craq = map(os.path.realpath, sys.argv[1:3])
    running.OPTIONS[:] = sys.argv[3:]
    for program in craqd, craq:
        if not os.access(program, os.X_OK):
            print(f"end to end: there is no program {program}", file=sys.stderr)
            return 1
    checks, began = Checks("end to end", progress=True), time.time()
    nowhere = f"127.0.0.1:{free_port()}"
    checks.part("the page of bytes", clients.page)
    checks.part("help", commands.helps, craq, craqd)
    checks.part("command lines", commands.no_commands, craq, nowhere)
    checks.part("no server", commands.no_server, craq, nowhere)
    checks.part("the greatest names", faults.great_plan, craqd, craq)
    checks.part("too many connections", bad_input.too_many, craqd)
    checks.part("closed streams", bad_input.closed_streams, craqd)
    limits.tried(checks, craqd)
    endings.tried(checks, craqd)
    peers.tried(checks, craqd)
    control.tried(checks, craqd)
    metrics.tried(checks, craqd, craq)
    checks.part("signals", signals.tried, craqd)
    checks.part("craq as a prompt", prompts.all_of, craqd, craq)
    checks.part("craq's verbs for people", human.all_of, craqd, craq, nowhere)
    checks.part("servers that do not answer", late.tried, craqd, craq)
    checks.part("a server", served, craqd, craq)
    print(f"end to end: {checks.passed} passed, {checks.failed} failed, in {time.time() - began:.0f} s")
    return 1 if checks.failed else 0


if __name__ == "__main__":
    sys.exit(main())
