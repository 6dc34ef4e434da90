"""The bytes of requests and replies, as docs/use/BYTES.md describes them.

Functions here encode commands and requests, and decode replies. They open no connection.
Numbers are big-endian. A request is a pair of its kind and its body; `one` and `many` make the
payload of a frame from requests.
"""
from __future__ import annotations

from dataclasses import dataclass
from typing import Iterable, NamedTuple, Optional, Sequence, Tuple, Union

FRAME_LIMIT = 1_048_576
MANY_LIMIT, ITEM_LIMIT = 8, 16
UPDATE, READ, STATUS, MANY = 1, 2, 3, 4
UPDATE_REPLY, READ_REPLY, REFUSED_REPLY, STATUS_REPLY, MANY_REPLY = 1, 2, 3, 4, 5
STRONG, EVENTUAL = b"\x01", b"\x02"
# After these refusals a request may be retried: another node is the head, the node is not ready
# yet, it stopped, it has too many pending requests, it is out of memory, or the server closes.
NOT_HEAD, NOT_READY, STOPPED, PENDING_FULL, MEMORY, CLOSED = 9, 10, 11, 12, 14, 27
PASSING = (NOT_HEAD, NOT_READY, STOPPED, PENDING_FULL, MEMORY, CLOSED)
# After these refusals, as after a lost connection, an update may have been done.
OPEN = (STOPPED, MEMORY, CLOSED)

Request = Tuple[int, bytes]
Key = Union[str, bytes]


@dataclass(frozen=True)
class Read:
    """The version and the value of an object; version 0 and no bytes if it was never written."""

    version: int
    value: bytes

    @property
    def number(self) -> int:
        """The number of a counter; 0 if the object was never written.

        Raises ValueError if the value does not have 8 bytes.
        """
        if self.version and len(self.value) != 8:
            raise ValueError(f"a number has 8 bytes, and this value has {len(self.value)}")
        return int.from_bytes(self.value, "big")


@dataclass(frozen=True)
class Written:
    """The update wrote this version, which is at least 1."""

    version: int


@dataclass(frozen=True)
class Mismatch:
    """Nothing was written: the object has this version."""

    version: int


@dataclass(frozen=True)
class TooLong:
    """Nothing was written: the value would have more than 4,096 bytes."""


@dataclass(frozen=True)
class NotANumber:
    """Nothing was written: the value does not have 8 bytes."""


@dataclass(frozen=True)
class Overflow:
    """Nothing was written: the sum is above 2^64 - 1."""


@dataclass(frozen=True)
class Underflow:
    """Nothing was written: the difference is below 0."""


@dataclass(frozen=True)
class Done:
    """The transaction was done; `reads` has what it read, as it was before its writes."""

    reads: list[Read]


@dataclass(frozen=True)
class CompareFailed:
    """Nothing was written: the compare with this index, from 0, is the first that failed."""

    index: int


@dataclass(frozen=True)
class Stale:
    """Nothing was done now: the number is below the 8 kept ones; `last` is the largest of them."""

    last: int


UpdateReply = Union[
    Written, Mismatch, TooLong, NotANumber, Overflow, Underflow, Done, CompareFailed, Stale]


class Refused(Exception):
    """The store refused the request and did nothing.

    After 11, 14 and 27 an update may have been done nevertheless: ask it again with its number.
    `number` and `detail` are those of the reply; the detail of 9 is the head's id.
    """

    NAMES = {
        7: "UnknownChain", 8: "TwoChains", 9: "NotHead", 10: "NotReady", 11: "Stopped", 12: "PendingFull",
        13: "Exhausted", 14: "Memory", 15: "BadFrame", 16: "FrameTooLong", 23: "WrongNode", 27: "Closed",
    }

    WORDS = {
        7: "there is no such chain", 8: "the objects are not of one chain",
        9: "updates go to the head, node {}", 10: "the node is not ready yet", 11: "the node has stopped",
        12: "too many requests are waiting, ask later",
        13: "a counter is at its end, or the pass is far above those that the server sent",
        14: "the server is out of memory, ask later", 15: "the request was not understood",
        16: "the request is too long", 23: "the chain never had such a node", 27: "the server is closing",
    }

    def __init__(self, number: int, detail: int = 0) -> None:
        name, words = self.NAMES.get(number, "of another call"), self.WORDS.get(number, "")
        super().__init__(f"{number} {name}" + (f" {detail}" if detail else "")
                         + (f": {words.format(detail)}" if words else ""))
        self.number, self.detail = number, detail


class BadReply(Exception):
    """The bytes that came are no reply, or not one to this request."""


class Reply(NamedTuple):
    """A decoded reply: its pass, or None if it has none, and its value, text or refusal."""

    shown: Optional[int]
    told: Union[UpdateReply, Read, str, Refused]


# Bytes of parts.

def number(size: int, it: int) -> bytes:
    """Encodes a number in this many bytes. Raises OverflowError if it does not fit."""
    if not isinstance(it, int):
        raise TypeError(f"expected a number, and not {it!r}")
    if not 0 <= it < 256 ** size:
        raise OverflowError(f"expected a number of {8 * size} bits, and not {it}")
    return it.to_bytes(size, "big")


def key_bytes(key: Key) -> bytes:
    """Encodes a key. Raises ValueError unless it has 1 to 128 bytes."""
    key = key.encode() if isinstance(key, str) else key
    if not 1 <= len(key) <= 128:
        raise ValueError(f"a key has 1 to 128 bytes, and this one has {len(key)}")
    return number(1, len(key)) + key


def value_bytes(value: bytes) -> bytes:
    """Encodes a value. Raises ValueError if it has more than 4,096 bytes."""
    if isinstance(value, str):
        raise TypeError("a value is bytes, and not a text: encode it, as \"blue\".encode()")
    if len(value) > 4096:
        raise ValueError(f"a value has at most 4096 bytes, and this one has {len(value)}")
    return number(2, len(value)) + value


def object_bytes(chain: int, key: Key) -> bytes:
    """Encodes the object with this key in this chain."""
    return number(2, chain) + key_bytes(key)


class Unread:
    """The bytes of a payload that have not been decoded yet."""

    def __init__(self, payload: bytes) -> None:
        self.left = payload

    def bytes(self, size: int) -> bytes:
        """Takes this many bytes. Raises BadReply if there are fewer."""
        if size > len(self.left):
            raise BadReply("it ends too early")
        front, self.left = self.left[:size], self.left[size:]
        return front

    def number(self, size: int) -> int:
        """Takes a number of this many bytes."""
        return int.from_bytes(self.bytes(size), "big")

    def value(self) -> bytes:
        """Takes a value."""
        return self.bytes(self.number(2))

    def end(self) -> None:
        """Raises BadReply if bytes are left."""
        if self.left:
            raise BadReply("it goes on after its end")


# Commands.

def put(chain: int, key: Key, value: bytes) -> bytes:
    """Writes the value."""
    return b"\x01" + object_bytes(chain, key) + value_bytes(value)


def test_and_set(chain: int, key: Key, expected: int, value: bytes) -> bytes:
    """Writes the value if the object has the expected version."""
    return b"\x02" + object_bytes(chain, key) + number(8, expected) + value_bytes(value)


def append(chain: int, key: Key, value: bytes) -> bytes:
    """Appends to the value."""
    return b"\x03" + object_bytes(chain, key) + value_bytes(value)


def prepend(chain: int, key: Key, value: bytes) -> bytes:
    """Prepends to the value."""
    return b"\x04" + object_bytes(chain, key) + value_bytes(value)


def increment(chain: int, key: Key, by: int) -> bytes:
    """Adds to the number in the object's 8 bytes; an unwritten object counts as 0."""
    return b"\x05" + object_bytes(chain, key) + number(8, by)


def decrement(chain: int, key: Key, by: int) -> bytes:
    """Subtracts from the number in the object's 8 bytes; an unwritten object counts as 0."""
    return b"\x06" + object_bytes(chain, key) + number(8, by)


def mini(chain: int, compares: Iterable[tuple[Key, int]] = (), reads: Iterable[Key] = (),
         writes: Iterable[tuple[Key, bytes]] = ()) -> bytes:
    """Reads keys and writes (key, value) pairs, atomically, if every (key, version) matches."""
    compares, reads, writes = list(compares), list(reads), list(writes)
    check_items([it[0] for it in compares], reads, [it[0] for it in writes])
    lists = ([object_bytes(chain, key) + number(8, version) for key, version in compares],
             [object_bytes(chain, key) for key in reads],
             [object_bytes(chain, key) + value_bytes(value) for key, value in writes])
    return b"\x07" + b"".join(number(1, len(it)) + b"".join(it) for it in lists)


def check_items(*lists: Sequence[Key]) -> None:
    """Raises ValueError unless a transaction may have these keys of its three kinds of items."""
    if not any(lists):
        raise ValueError("a transaction has 1 item or more")
    for keys in lists:
        if len(keys) > ITEM_LIMIT:
            raise ValueError(f"a transaction has at most {ITEM_LIMIT} items of a kind, and not {len(keys)}")
        if len({key_bytes(it) for it in keys}) < len(keys):
            raise ValueError("no items of one kind have the same key")


def bounded(above: int) -> bytes:
    """Returns the mode of a read that is at most `above` versions above the known committed one."""
    return b"\x03" + number(4, above)


# Requests.

def check_number(request: Optional[int]) -> None:
    """Raises ValueError if this is a number of no update: it has 64 bits, and is at least 1."""
    if request is not None and not 1 <= request < 2 ** 64:
        raise ValueError(f"the number of an update has 64 bits and is at least 1, and not {request}")


def update_request(node: int, shown: int, client: int, request: int, command: bytes) -> Request:
    """Returns an update as its kind and its body."""
    check_number(request)
    return UPDATE, number(4, node) + number(8, shown) + number(8, client) + number(8, request) + command


def read_request(node: int, shown: int, mode: bytes, chain: int, key: Key) -> Request:
    """Returns a read as its kind and its body. Raises TypeError unless the mode is encoded."""
    if not isinstance(mode, bytes):
        raise TypeError(f"a mode is STRONG, EVENTUAL or bounded(K), and not {mode!r}")
    return READ, number(4, node) + number(8, shown) + mode + object_bytes(chain, key)


def one(version: int, request: Request) -> bytes:
    """Encodes the payload of one request."""
    kind, body = request
    return number(1, version) + number(1, kind) + body


def many(requests: Sequence[Request]) -> bytes:
    """Encodes the payload of up to eight requests, in version 2."""
    bodies = b"".join(number(1, kind) + body for kind, body in requests)
    return bytes([2, MANY, len(requests)]) + bodies


# Replies.

BARE: dict[int, UpdateReply] = {3: TooLong(), 4: NotANumber(), 5: Overflow(), 6: Underflow()}


def take_update_reply(unread: Unread) -> UpdateReply:
    """Takes the reply to an update from the front of these bytes."""
    tag = unread.number(1)
    if tag in BARE:
        return BARE[tag]
    if tag == 1:
        return Written(unread.number(8))
    if tag == 2:
        return Mismatch(unread.number(8))
    if tag == 7:
        return Done([Read(unread.number(8), unread.value()) for _ in range(unread.number(1))])
    if tag == 8:
        return CompareFailed(unread.number(1))
    if tag == 9:
        return Stale(unread.number(8))
    raise BadReply(f"an update reply with tag {tag}")


def take_reply(unread: Unread, kind: int) -> Reply:
    """Takes a reply of this kind from the front of these bytes."""
    if kind == UPDATE_REPLY:
        return Reply(unread.number(8), take_update_reply(unread))
    if kind == READ_REPLY:
        return Reply(unread.number(8), Read(unread.number(8), unread.value()))
    if kind == REFUSED_REPLY:
        return Reply(None, Refused(unread.number(1), unread.number(8)))
    if kind == STATUS_REPLY:
        return Reply(None, unread.bytes(unread.number(4)).decode())
    raise BadReply(f"a reply of kind {kind}")


def fits(reply: Reply, kind: int) -> bool:
    """Tells whether this may be the reply to a request of this kind."""
    if isinstance(reply.told, Refused):
        return True
    if kind == STATUS:
        return isinstance(reply.told, str)
    return isinstance(reply.told, Read) if kind == READ else not isinstance(reply.told, (Read, str))


def replies_of(payload: bytes) -> list[Reply]:
    """Decodes the replies in a payload: one, or those to a Many. Raises BadReply."""
    unread = Unread(payload)
    version, kind = unread.number(1), unread.number(1)
    if (version, kind) == (2, MANY_REPLY):
        replies = [take_reply(unread, unread.number(1)) for _ in range(unread.number(1))]
    elif version in (1, 2):
        replies = [take_reply(unread, kind)]
    else:
        raise BadReply(f"version {version}")
    unread.end()
    return replies
