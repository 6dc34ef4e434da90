"""A client for tests: one connection, one request at a time, and request numbers from 1.

It shows each step to the test: the connection, the numbers, the passes. Programs use the package
of clients/python instead, from which the bytes come. Use it as

    from tools import plain_client as example
"""
import json
import random
import secrets
import time

from jilsdau.connection import Connection
from jilsdau.wire import (
    CLOSED, EVENTUAL, FRAME_LIMIT, MANY, MANY_REPLY, MEMORY, NOT_HEAD, NOT_READY, PASSING,
    PENDING_FULL, READ, READ_REPLY, REFUSED_REPLY, STATUS, STATUS_REPLY, STOPPED, STRONG, UPDATE,
    UPDATE_REPLY, BadReply, CompareFailed, Done, Mismatch, NotANumber, Overflow, Read, Refused,
    Stale, TooLong, Underflow, Unread, Written, append, bounded, decrement, increment, many, mini,
    number, one, prepend, put, read_request, replies_of, take_reply, test_and_set, update_request)

__all__ = [
    "BadReply", "CLOSED", "Client", "CompareFailed", "Connection", "Done", "EVENTUAL",
    "FRAME_LIMIT", "MANY", "MANY_REPLY", "MEMORY", "Mismatch", "NOT_HEAD", "NOT_READY",
    "NotANumber", "Overflow", "PASSING", "PENDING_FULL", "READ", "READ_REPLY", "REFUSED_REPLY",
    "Read", "Refused", "STATUS", "STATUS_REPLY", "STOPPED", "STRONG", "Stale", "TooLong", "UPDATE",
    "UPDATE_REPLY", "Underflow", "Unread", "Written", "append", "bounded", "decrement",
    "increment", "many", "mini", "number", "one", "prepend", "put", "read_request", "replies_of",
    "take_reply", "test_and_set", "update_request"]


class Client:
    """A client with an id, its request numbers, and its pass: the largest that it has received.

    Updates go to the head of their chain and reads to any member, unless the call names a node. If
    the call names none, a request that failed in passing is retried, `tries` times in all; an update
    keeps its number, so it is done only once. If an update fails even so, it may have been done:
    `numbers[chain]` is its number, to be given to the same call as `request`.

    address is HOST:PORT. version is that of the payloads, 1 or 2; `many` works with either. client
    is an id that no other client uses, random if it is None. shown is the first pass to send.
    Raises OSError if no server listens.
    """

    def __init__(self, address, version=1, client=None, shown=0, tries=6):
        self.address, self.connection = address, None
        self.version, self.shown, self.tries = version, shown, tries
        self.id = secrets.randbits(64) if client is None else client
        self.numbers = {}
        try:
            self.chains = self.retried(lambda _: self.status())
        except BaseException:
            self.close()
            raise

    def __enter__(self):
        return self

    def __exit__(self, *_):
        self.close()

    def close(self):
        """Closes the connection. The next call opens another one."""
        if self.connection:
            self.connection.close()
        self.connection = None

    # Calls of one request and its reply.

    def put(self, key, value, chain=0, **where):
        """Writes the value. Returns Written(version)."""
        return self.update(chain, put(chain, key, value), **where)

    def tas(self, key, expected, value, chain=0, **where):
        """Writes the value if the version is the expected one. Else returns Mismatch(version)."""
        return self.update(chain, test_and_set(chain, key, expected, value), **where)

    def append(self, key, value, chain=0, **where):
        """Adds the value at the end. Returns Written(version), or TooLong() above 4,096 bytes."""
        return self.update(chain, append(chain, key, value), **where)

    def prepend(self, key, value, chain=0, **where):
        """Adds the value at the front. Returns Written(version), or TooLong() above 4,096 bytes."""
        return self.update(chain, prepend(chain, key, value), **where)

    def inc(self, key, by=1, chain=0, **where):
        """Adds to the 8-byte number: Written(version), NotANumber() or Overflow()."""
        return self.update(chain, increment(chain, key, by), **where)

    def dec(self, key, by=1, chain=0, **where):
        """Subtracts from the 8-byte number: Written(version), NotANumber() or Underflow()."""
        return self.update(chain, decrement(chain, key, by), **where)

    def mini(self, compares=(), reads=(), writes=(), chain=0, **where):
        """Runs a transaction in one chain. Returns Done(reads), or CompareFailed(index)."""
        return self.update(chain, mini(chain, compares, reads, writes), **where)

    def read(self, key, mode=STRONG, chain=0, node=None):
        """Reads in mode STRONG, EVENTUAL or bounded(K). Returns Read(version, value).

        An object that was never written has version 0 and no bytes.
        """
        return self.ask_again(lambda: self.asks_read(key, mode, chain, node), node is None)

    def status(self):
        """Returns the chains by id, each with its name, its epoch and its members, head first."""
        return json.loads(self.ask((STATUS, b"")))["chains"]

    def update(self, chain, command, node=None, request=None):
        """Sends an update to the head or this node, with the client's next number or this one."""
        request = self.next_number(chain) if request is None else request
        return self.ask_again(lambda: self.asks_update(chain, command, node, request), node is None)

    def ask_again(self, request, may_retry):
        """Sends a request, made anew each time, until a reply or a lasting refusal."""
        def attempt(is_first):
            if not is_first:
                self.chains = self.status()
            return self.ask(request())
        return self.retried(attempt) if may_retry else attempt(True)

    def retried(self, attempt):
        """Retries after a lost connection or a passing refusal, `tries` times in all."""
        for tried in range(1, self.tries + 1):
            try:
                return attempt(tried == 1)
            except (OSError, Refused) as fault:
                lasts = isinstance(fault, Refused) and fault.number not in PASSING
                if lasts or tried == self.tries:
                    raise
                time.sleep(0.05 * tried)
        raise ValueError("no tries")

    # Requests for `many`, which sends up to eight in one frame and returns their replies in order.

    def asks_put(self, key, value, chain=0):
        """Makes a put for `many`, with the client's next number."""
        return self.asks_update(chain, put(chain, key, value))

    def asks_read(self, key, mode=STRONG, chain=0, node=None):
        """Makes a read for `many`, at this node or at any member."""
        node = random.choice(self.members(chain)) if node is None else node
        return read_request(node, self.shown, mode, chain, key)

    def asks_update(self, chain, command, node=None, request=None):
        """Makes an update for `many`, at the head or this node, with the next or this number."""
        node = self.members(chain)[0] if node is None else node
        request = self.next_number(chain) if request is None else request
        return update_request(node, self.shown, self.id, request, command)

    def members(self, chain):
        """Returns the nodes of a chain, head first, from the last status."""
        if not 0 <= chain < len(self.chains):
            raise Refused(7, 0)
        return self.chains[chain]["members"]

    def next_number(self, chain):
        """Returns the number of this client's next update of a chain, and uses it up."""
        self.numbers[chain] = self.numbers.get(chain, 0) + 1
        return self.numbers[chain]

    def many(self, requests):
        """Sends requests once. Returns the replies in order; a refusal is a Refused among them."""
        replies = self.exchange(many(requests))
        if len(replies) == 1 and len(requests) > 1 and isinstance(replies[0], Refused):
            raise replies[0]
        if len(replies) != len(requests):
            raise BadReply("another count of replies")
        return replies

    def ask(self, request):
        """Sends one request, once."""
        [told] = self.exchange(one(self.version, request))
        if isinstance(told, Refused):
            raise told
        return told

    def exchange(self, payload):
        """Sends a payload and returns its replies. A failed connection is closed."""
        if not self.connection:
            self.connection = Connection(self.address)
        try:
            self.connection.send(payload)
            replies = replies_of(self.connection.receive())
        except (OSError, BadReply):
            self.close()
            raise
        self.shown = max([self.shown] + [shown for shown, _ in replies if shown is not None])
        return [told for _, told in replies]
