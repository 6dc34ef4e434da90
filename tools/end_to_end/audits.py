"""Checks the output and the status of craqd where its audits find a fault or are refused. The craqd is built
from changed sources: no request from outside makes journals and receipts that do not fit."""
import re

from tools.end_to_end import running
from tools.end_to_end.clients import Client

# The program, and its changes: a file of crates/, a text that occurs in it once, and the text that
# replaces it.
PROGRAM = "craqd_misaudited"
CHANGES = [
    # Each chain is audited with the receipts of the one beside it, also where no journals are kept,
    (
        "craqd/src/audits.rt",
        "print_audit_of(rt, store, ChainId::new(chain), ",
        "print_audit_of(rt, store, ChainId::new(chain ^ 1), ",
    ),
    ("craqd/src/serving.rt", "if store.has_journals() {", "if true {"),
    # no message of node 77 was sent,
    (
        "craq_audit/src/senders.rt",
        "Event::Deliver(message) => was_sent(",
        "Event::Deliver(message) => message.sender.get() != 77 && was_sent(",
    ),
    # and the journals of chain 2 are those of other nodes.
    (
        "craq_audit/src/auditing.rt",
        "if !are_of_chain(book, cells) {",
        "if book.opening().name.chain.get() == 2 || !are_of_chain(book, cells) {",
    ),
]
TWO = """\
[[chain]]
name = "a"
nodes = [77, 78]

[[chain]]
name = "b"
nodes = [1]
"""
FOUR = (
    TWO
    + """
[[chain]]
name = "c"
nodes = [2]

[[chain]]
name = "d"
nodes = [3]
"""
)
# The number of chains, and whether they keep journals; the lines of the audits of chains 1, 0 and 3, by a
# pattern since ticks may come to node 78 before the put does; the number with which the next audit is
# refused, if one is; and the status.
FAULTS = "audit noreceipt 0\naudit nosender 78 [0-9]+\n"
ENDS = (TWO, True, FAULTS, None, 0), (FOUR, True, f"{FAULTS}audit merged 0\n", 23, 5), (TWO, False, "", 24, 5)


def ended(checks, craqd, plan, journal, audits, refused, status):
    """A server whose one client puts at node 77 of chain 0 ends with these audits and this
    status."""
    server = running.Server(craqd, plan, 1, journal=journal)
    try:
        with Client(server.address, tries=1) as client:
            client.put("k", b"v", node=77)
        out, err = (it.decode() for it in server.process.communicate(timeout=running.PATIENCE))
    finally:
        server.kill()
    what = f"audits that do not fit, {'with' if journal else 'without'} journals, refused {refused}"
    checks.same(f"{what}: the status", server.process.returncode, status)
    checks.that(re.fullmatch(audits, out), f"{what}: {out!r} and not {audits!r}")
    told = server.served() + (f"audit refused {refused}\n" if refused else "")
    checks.that(re.fullmatch(told, err), f"{what}: on standard error {err!r} and not {told!r}")


def tried(checks, craqd):
    """Tries each of the ends, and returns their number in words."""
    for end in ENDS:
        ended(checks, craqd, *end)
    return f"{len(ENDS)} ends of a server"
