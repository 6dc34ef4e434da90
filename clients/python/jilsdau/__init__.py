"""A client of a Jilsdau store, with Python's standard library alone.

    from jilsdau import Client

    with Client() as store:                     # CRAQ_CONNECT, or 127.0.0.1:7000
        store.set("k", b"a")                    # Written(version=1)
        store.get("k")                          # Read(version=1, value=b'a')
        store.get("k", node=3)                  # every node of the chain serves reads
        store.cas("k", 1, b"b")                 # Written(version=2)
        store.add("n", 7)                       # Written(version=1)
        store.txn(compares=[("k", 2)], reads=["n"], writes=[("k", b"c")])
        store.many([store.asks_set("k", b"d"), store.asks_get("k")])

`python3 -m jilsdau --help` tells the same calls as a command. The bytes are those of
docs/use/BYTES.md.
"""
from .client import Asked, Chain, Client, Health, Open
from .connection import Connection, NoConnection, Pool
from .wire import (
    EVENTUAL, STRONG, BadReply, CompareFailed, Done, Mismatch, NotANumber, Overflow, Read, Refused, Stale,
                   TooLong,
    Underflow, Written, bounded)

__version__ = "0.1.0"
__all__ = [
    "EVENTUAL", "STRONG", "Asked", "BadReply", "Chain", "Client", "CompareFailed", "Connection", "Done",
           "Health",
    "Mismatch", "NoConnection", "NotANumber", "Open", "Overflow", "Pool", "Read", "Refused", "Stale",
           "TooLong",
    "Underflow", "Written", "bounded"]
