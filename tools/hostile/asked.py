"""The bytes that are requests, and the replies that they may get: read from docs/use/BYTES.md alone,
to compare a server with."""
import re

from tools import plain_client as example
from tools import repository

PAGE = repository.path("docs", "use", "BYTES.md")
UPDATE, READ, STATUS, MANY = example.UPDATE, example.READ, example.STATUS, example.MANY
LIMIT = example.FRAME_LIMIT
MOST_KEY, MOST_VALUE, MOST_ITEMS, MOST_ASKS = 128, 4096, 16, 8
NO_REQUEST = bytes.fromhex("0103 0f 0000000000000000")
TOO_LONG = bytes.fromhex("0103 10 0000000000000000")
# The client of the requests below: no other client has this id.
NODE, CLIENT = 1, 0xabcdef


class NoRequest(Exception):
    """The bytes are no request."""


class Unread(example.Unread):
    """The bytes of a payload that have not been read yet, read strictly."""

    def bytes(self, size):
        if size > len(self.left):
            raise NoRequest("it ends too early")
        return super().bytes(size)

    def within(self, size, least, most):
        found = self.number(size)
        if not least <= found <= most:
            raise NoRequest(f"{found} is not from {least} to {most}")
        return found

    def object(self):
        return self.number(2), self.bytes(self.within(1, 1, MOST_KEY))

    def value(self):
        return self.bytes(self.within(2, 0, MOST_VALUE))

    def listed(self, rest):
        """Returns the objects of a list of a transaction; `rest` reads what follows each of
        them."""
        found = []
        for _ in range(self.within(1, 0, MOST_ITEMS)):
            found.append(self.object())
            rest()
        if len(set(found)) < len(found):
            raise NoRequest("an object twice")
        return found

    def mini(self):
        compares, reads = self.listed(lambda: self.number(8)), self.listed(lambda: None)
        if not compares + reads + self.listed(self.value):
            raise NoRequest("an empty transaction")

    def command(self):
        tag = self.within(1, 1, 7)
        if tag == 7:
            return self.mini()
        self.object()
        if tag == 2:
            self.number(8)
        return self.number(8) if tag in (5, 6) else self.value()

    def request(self, kind):
        """Reads the body of a request of one kind, and gives that."""
        if kind == UPDATE:
            self.bytes(4 + 8 + 8)
            self.within(8, 1, 2**64 - 1)
            self.command()
        elif kind == READ:
            self.bytes(4 + 8)
            if self.within(1, 1, 3) == 3:
                self.bytes(4)
            self.object()
        elif kind != STATUS:
            raise NoRequest(f"kind {kind}")
        return kind

    def end(self):
        if self.left:
            raise NoRequest("it goes on after its end")


def kinds_of(payload):
    """Returns the version of a payload, whether it is a Many, and the kinds of its asks, or None if
    it is no request."""
    unread = Unread(payload)
    try:
        version, kind = unread.within(1, 1, 2), unread.number(1)
        is_many = (version, kind) == (2, MANY)
        asks = [unread.request(unread.number(1))
                for _ in range(unread.within(1, 1, MOST_ASKS))] if is_many else [unread.request(kind)]
        unread.end()
        return version, is_many, asks
    except NoRequest:
        return None


def may_answer(reply, asked):
    """Returns whether a payload is a reply to such a request: of its version, whole, and for each ask a
    reply of its kind or a refusal."""
    version, is_many, asks = asked
    unread = example.Unread(reply)
    try:
        if unread.number(1) != version:
            return False
        if is_many and (unread.number(1), unread.number(1)) != (example.MANY_REPLY, len(asks)):
            return False
        for ask in asks:
            kind = unread.number(1)
            example.take_reply(unread, kind)
            wanted = {UPDATE: example.UPDATE_REPLY, READ: example.READ_REPLY,
                      STATUS: example.STATUS_REPLY}[ask]
            if kind != wanted and (ask == STATUS or kind != example.REFUSED_REPLY):
                return False
        unread.end()
        return True
    except (example.BadReply, UnicodeDecodeError):
        return False


def frames_in(sent):
    """Returns the payloads of the whole frames at the front of these bytes, up to a length above
    the limit, and whether there is one."""
    found, at = [], 0
    while len(sent) - at >= 4:
        size = int.from_bytes(sent[at:at + 4], "big")
        if size > LIMIT:
            return found, True
        if len(sent) - at - 4 < size:
            break
        found.append(sent[at + 4:at + 4 + size])
        at += 4 + size
    return found, False


def are_replies(said, sent):
    """Returns whether a server may send these bytes for the bytes that were sent and their end."""
    payloads, too_long = frames_in(sent)
    replies, more = frames_in(said)
    if more or sum(4 + len(it) for it in replies) != len(said) or len(replies) != len(payloads) + too_long:
        return False
    if too_long and replies.pop() != TOO_LONG:
        return False
    return all(is_reply(reply, payload) for reply, payload in zip(replies, payloads))


def is_reply(reply, payload):
    """Returns whether `reply` is a payload that a server may send for this request."""
    asked = kinds_of(payload)
    return reply == NO_REQUEST if asked is None else may_answer(reply, asked)


def worked_bytes():
    """Returns all bytes that the page has in its worked tables, in order: whole frames, commands,
    modes and replies."""
    with open(PAGE, encoding="utf-8") as it:
        part = it.read().partition("\n## Worked bytes")[2].partition("\n## What nodes send")[0]
    return [bytes.fromhex(it) for it in re.findall(r"`((?:[0-9a-f]{2} ?)+)`", part)]


def is_command(it):
    unread = Unread(it)
    try:
        unread.command()
        unread.end()
        return True
    except NoRequest:
        return False


def updates(commands):
    """Returns each command as an update, with a number each."""
    return [example.update_request(NODE, 0, CLIENT, at + 1, it) for at, it in enumerate(commands)]


def requests():
    """Returns a payload for each request of the page, by name: each command and mode, Status and
    Many, in both versions."""
    found = worked_bytes()
    commands = [it for it in found if is_command(it)]
    modes = [example.STRONG, example.EVENTUAL, example.bounded(9)]
    bodies = updates(commands) + [example.read_request(NODE, 0, it, 0, "k") for it in modes] + [(STATUS, b"")]
    payloads = [example.one(version, it) for version in (1, 2) for it in bodies]
    return payloads + [it[4:] for it in found if len(it) > 4 and frames_in(it) == ([it[4:]], False)
                       and kinds_of(it[4:])]
