"""craqd and craq without their proofs, from end to end: a server, commands and clients. What looks
at a clock or at the memory of a server is left to tools/end_to_end/run, since other programs run
beside these."""
from tools.end_to_end import bad_input, clients, commands, control, human, running
from tools.sockets import free_port

CONNECTIONS = 1_600
# Seconds that a reply may take while other checks run.
PATIENCE = 120
# Number of times that a node is replaced while clients go on.
ROUNDS = 10


def answers(checks, craqd):
    """Checks whether a server answers a first request."""
    server = running.Server(craqd, running.PLAN, 2)
    try:
        with server.connect() as made:
            made.sendall(bad_input.framed(bad_input.STATUS))
            found = bad_input.taken(made, 4 + 6 + len(running.STATUS))
    except OSError as failure:
        found = failure
    finally:
        server.kill()
    wanted = bytes.fromhex("0104") + bad_input.framed(running.STATUS.encode())
    checks.same("the first reply of craqd", found, bad_input.framed(wanted))
    return found == bad_input.framed(wanted)


def asked(checks, server, craq):
    """Runs all checks of one server, and then its audit."""
    checks.part("craq", commands.rows, server, craq)
    for version in 1, 2:
        for chain in 0, 1:
            checks.part("the client's calls", clients.calls, server, version, chain)
    checks.part("batches", clients.batches, server)
    checks.part("requests that do not wait", clients.pipeline, server)
    checks.part("clients at once", clients.at_once, server)
    checks.part("requests that are none", bad_input.no_requests, server)
    checks.part("bytes that are cut", bad_input.cuts, server)
    checks.part("lost replies", clients.lost_replies, server)
    checks.part("the command in Python", clients.worded, server)
    audits = "".join(f"audit merged {server.answered.get(chain, 0)}\n" for chain in (0, 1))
    server.finish(checks, "craqd --journal", audits)
    return f"{sum(server.answered.values())} asks answered"


def serves(checks, craqd, craq):
    """Checks the helps, command lines, and a server; one that does not answer is asked no more."""
    if not answers(checks, craqd):
        return "a server that does not answer"
    running.PATIENCE, nowhere = PATIENCE, f"127.0.0.1:{free_port()}"
    checks.part("the page of bytes", clients.page)
    checks.part("help", commands.helps, craq, craqd)
    checks.part("command lines", commands.no_commands, craq, nowhere)
    checks.part("no server", commands.no_server, craq, nowhere)
    control.tried(checks, craqd, ROUNDS)
    checks.part("verbs for people", human.all_of, craqd, craq, nowhere)
    server = running.Server(craqd, running.PLAN, CONNECTIONS)
    try:
        return checks.part("a server", asked, server, craq)
    finally:
        server.kill()
