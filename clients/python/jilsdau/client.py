"""A client of a running store: updates, reads, and what the store consists of."""
from __future__ import annotations

import contextlib
import json
import random
import threading
import time
from dataclasses import dataclass, replace
from typing import Callable, Iterable, Iterator, Optional, Sequence, TypeVar, Union, cast

from . import wire
from .connection import Deadline, NoConnection, Pool
from .identity import default_address, default_id
from .numbers import Numbers
from .wire import BadReply, Key, Mismatch, Read, Refused, Reply, Request, Stale, UpdateReply

# A TestAndSet that expects this version writes nothing: no object has it.
NO_VERSION = 2 ** 64 - 1
HEALTH_KEY = "health"
# The seconds that the read of `health` at a member may take.
READ_SECONDS = 2
# The wait before a retry grows by this many seconds with each retry.
PAUSE = 0.05
# The tries of a request: where each fails at once the last comes 8 to 9 seconds after the first, and
# where no server answers a second after it.
TRIES, UNANSWERED = 19, 6
# The new numbers that are tried for an update.
NUMBERS = 8

Told = Union[UpdateReply, Read, str]
ChainName = Union[int, str]
T = TypeVar("T")
# Is called with a member, and with the seconds of a read there or why it gave none.
Seen = Callable[[int, Union[float, Exception]], None]


def unseen(_node: int, _result: Union[float, Exception]) -> None:
    """Does nothing."""


@dataclass(frozen=True)
class Chain:
    """A chain: its id, its name, its epoch (the number of its membership), its members, head first."""

    id: int
    name: str
    epoch: int
    members: list[int]


@dataclass(frozen=True)
class Health:
    """The seconds of a strong read at each member of a chain, and of an update through all of them.

    `failed` has the members that gave no time: with the Refused of the read, or a TimeoutError after 2
    seconds. `update` is None if a member is stopped, behind which an update would wait, and if the update
    failed: `fault` is then what it failed with.
    """

    chain: Chain
    update: Optional[float]
    reads: dict[int, float]
    failed: dict[int, Exception]
    fault: Optional[Exception] = None

    def stopped(self) -> list[int]:
        """Returns the members that are stopped."""
        return [node for node, fault in self.failed.items() if is_refused(fault, wire.STOPPED)]

    def is_lost(self) -> bool:
        """Returns true if each member is stopped or not ready: such a chain cannot recover."""
        return not self.reads and all(is_refused(fault, wire.STOPPED, wire.NOT_READY)
                                      for fault in self.failed.values())


def is_refused(fault: Optional[Exception], *numbers: int) -> bool:
    """Returns true for a refusal with one of these numbers."""
    return isinstance(fault, Refused) and fault.number in numbers


@dataclass(frozen=True)
class Asked:
    """A request for `many`: an update, if it has a command, else a read."""

    chain: int
    command: Optional[bytes] = None
    number: Optional[int] = None
    node: Optional[int] = None
    mode: bytes = wire.STRONG
    key: Key = b""


class Open(Exception):
    """The update may or may not have been done.

    Make the same call again with the client's id `client` and with `number=` the number in
    `numbers`: it is then done once. After `many` make each update again with its number. The cause of
    this exception is the last fault.
    """

    def __init__(self, client: int, numbers: Sequence[int], fault: BaseException) -> None:
        super().__init__(f"the update may have been done: {fault}")
        self.client, self.numbers, self.fault = client, list(numbers), fault


class Client:
    """A client with an id, a pass and a pool of connections. Threads may share it.

    Updates go to the head of their chain, and reads to any member, unless the call names a node.
    A chain is given by its id or its name. After a lost connection or a passing refusal the
    request is retried, `tries` times in all and for `deadline` seconds, an update with its number, so
    it is done only once. A call that names a node is tried there once.

    address: HOST:PORT; if None, CRAQ_CONNECT or 127.0.0.1:7000.
    client: an id that no other program uses; if None, CRAQ_CLIENT or the id kept for this user.
    shown: the pass to start with, and then the largest that was received: give it to another client
    to pass on what this one has seen. Each request carries it, so no strong read is older than a
    strong reply that this client has received.
    connections: the most that are open at once. patience: seconds that one try may take.
    deadline: seconds that a request may take with all its tries.

    Nothing is sent before the first call. Calls raise Refused if the store refuses, Open if an
    update failed and may have been done, NoConnection and other OSErrors if no server answers,
    BadReply if bytes came that are no reply, and ValueError, OverflowError or TypeError, before
    anything is sent, if a key, a value, a number or a transaction has no encoding.
    """

    def __init__(self, address: Optional[str] = None, *, client: Optional[int] = None, shown: int = 0,
                 tries: int = TRIES, connections: int = 8, patience: float = 10,
                 deadline: float = 20) -> None:
        if tries < 1 or connections < 1:
            raise ValueError("a client has at least one try and one connection")
        self.pool = Pool(default_address() if address is None else address, connections)
        self.id = default_id() if client is None else client
        self.tries, self.patience, self.deadline = tries, patience, deadline
        self.shown, self.numbers = shown, Numbers()
        self.lock = threading.Lock()
        self.known: list[Chain] = []

    def __enter__(self) -> Client:
        return self

    def __exit__(self, *_: object) -> None:
        self.close()

    def close(self) -> None:
        """Closes the connections. The next call opens one again."""
        self.pool.close()

    # Updates.

    def set(self, key: Key, value: bytes, *, chain: ChainName = 0, node: Optional[int] = None,
            number: Optional[int] = None) -> UpdateReply:
        """Writes the value, and returns Written(version)."""
        return self.send(self.asks_set(key, value, chain=chain, node=node, number=number))

    def cas(self, key: Key, version: int, value: bytes, *, chain: ChainName = 0,
            node: Optional[int] = None, number: Optional[int] = None) -> UpdateReply:
        """Writes the value if the object has this version (0: never written), else Mismatch(version)."""
        return self.send(self.asks_cas(key, version, value, chain=chain, node=node, number=number))

    def append(self, key: Key, value: bytes, *, chain: ChainName = 0, node: Optional[int] = None,
               number: Optional[int] = None) -> UpdateReply:
        """Appends to the value: Written(version), or TooLong() above 4,096 bytes."""
        return self.send(self.asks(chain, lambda at: wire.append(at, key, value), node, number))

    def prepend(self, key: Key, value: bytes, *, chain: ChainName = 0, node: Optional[int] = None,
                number: Optional[int] = None) -> UpdateReply:
        """Prepends to the value: Written(version), or TooLong() above 4,096 bytes."""
        return self.send(self.asks(chain, lambda at: wire.prepend(at, key, value), node, number))

    def add(self, key: Key, by: int = 1, *, chain: ChainName = 0, node: Optional[int] = None,
            number: Optional[int] = None) -> UpdateReply:
        """Adds to the number in the object's 8 bytes: Written(version), NotANumber() or Overflow()."""
        return self.send(self.asks_add(key, by, chain=chain, node=node, number=number))

    def sub(self, key: Key, by: int = 1, *, chain: ChainName = 0, node: Optional[int] = None,
            number: Optional[int] = None) -> UpdateReply:
        """Subtracts from the number in the object's 8 bytes: Written(version), NotANumber() or
        Underflow()."""
        return self.send(self.asks(chain, lambda at: wire.decrement(at, key, by), node, number))

    def txn(self, compares: Iterable[tuple[Key, int]] = (), reads: Iterable[Key] = (),
            writes: Iterable[tuple[Key, bytes]] = (), *, chain: ChainName = 0, node: Optional[int] = None,
            number: Optional[int] = None) -> UpdateReply:
        """Reads and writes atomically if every (key, version) matches: Done(reads) or
        CompareFailed(index)."""
        return self.send(self.asks_txn(compares, reads, writes, chain=chain, node=node, number=number))

    def send(self, asked: Asked) -> UpdateReply:
        """Sends an update that was made for `many` by itself."""
        return self.update(asked.chain, cast(bytes, asked.command), node=asked.node, number=asked.number)

    def update(self, chain: int, command: bytes, *, node: Optional[int] = None,
               number: Optional[int] = None) -> UpdateReply:
        """Sends an encoded command as an update, under a new number unless one is given.

        Raises Open if it failed and may have been done. A new number that is Stale at its first
        try was never done (other programs use this client's id): it is exchanged for a larger one,
        seven times at most.
        """
        wire.check_number(number)
        asked, tried = Asked(chain, command, number, node), self.begin()
        return self.newly_numbered(asked, tried) if number is None else self.numbered(asked, tried)

    def newly_numbered(self, asked: Asked, tried: Tries) -> UpdateReply:
        """Asks an update under a new number, which is exchanged for a larger one if it is stale."""
        above, left = 0, NUMBERS
        while True:
            with self.numbers.take(asked.chain, above=above) as (fresh,):
                told = self.numbered(replace(asked, number=fresh), tried)
            left -= 1
            if not isinstance(told, Stale) or not left:
                return told
            if tried.may_be_done:
                raise Open(self.id, [fresh],
                           BadReply(f"its number is below the kept ones, up to {told.last}"))
            above, tried.count = told.last, 0

    def numbered(self, asked: Asked, tried: Tries) -> UpdateReply:
        """Asks an update until it is answered."""
        number, command = cast(int, asked.number), cast(bytes, asked.command)

        def attempt(limit: Deadline) -> Told:
            at = self.head(asked.chain, limit) if asked.node is None else asked.node
            with tried.sending():
                return self.ask(wire.update_request(at, self.shown, self.id, number, command), limit)

        try:
            return cast(UpdateReply, self.retried(attempt, asked.chain, tried) if asked.node is None
                        else attempt(tried.limit()))
        except (OSError, BadReply, Refused) as fault:
            if tried.may_be_done:
                raise Open(self.id, [number], fault) from fault
            raise

    # Reads.

    def get(self, key: Key, *, mode: bytes = wire.STRONG, chain: ChainName = 0,
            node: Optional[int] = None) -> Read:
        """Reads in mode STRONG, EVENTUAL or bounded(K); version 0 and no bytes if never written."""
        wire.key_bytes(key)
        at, tried = self.chain_id(chain), self.begin()

        def attempt(limit: Deadline) -> Told:
            asked = random.choice(self.chain(at, limit).members) if node is None else node
            return self.ask(wire.read_request(asked, self.shown, mode, at, key), limit)

        return cast(Read, self.retried(attempt, at, tried) if node is None else attempt(tried.limit()))

    def members(self) -> list[Chain]:
        """Returns the chains by id, each with its members, head first, as the server has them now."""
        return self.retried(self.refresh, None, self.begin())

    def health(self, *, chain: ChainName = 0, seen: Seen = unseen) -> Health:
        """Measures a strong read at each member, of 2 seconds at most, and then an update through the
        whole chain, which writes nothing and is left out if a member is stopped.

        Calls `seen` with each member at once, and with the seconds of its read or why it gave none. Raises
        what another fault of the server is.
        """
        deadline = Deadline(self.deadline)
        self.retried(self.refresh, None, self.begin(deadline))
        known = self.chain(self.chain_id(chain), deadline)
        reads: dict[int, float] = {}
        failed: dict[int, Exception] = {}
        for node in known.members:
            try:
                reads[node] = self.read_seconds(known.id, node, Deadline(READ_SECONDS, deadline))
                seen(node, reads[node])
            except (Refused, TimeoutError) as fault:
                failed[node] = fault
                seen(node, fault)
        if any(is_refused(fault, wire.STOPPED) for fault in failed.values()):
            return Health(known, None, reads, failed)
        try:
            return Health(known, self.update_seconds(known.id, deadline), reads, failed)
        except (OSError, BadReply, Refused) as fault:
            return Health(known, None, reads, failed, fault)

    def read_seconds(self, chain: int, node: int, limit: Deadline) -> float:
        """Returns the seconds of a strong read at a node, which is asked once."""
        began = time.perf_counter()
        self.ask(wire.read_request(node, self.shown, wire.STRONG, chain, HEALTH_KEY), limit)
        return time.perf_counter() - began

    def update_seconds(self, chain: int, deadline: Deadline) -> float:
        """Returns the seconds of an update through the whole chain that writes nothing."""
        command = wire.test_and_set(chain, HEALTH_KEY, NO_VERSION, b"")
        began = time.perf_counter()
        try:
            told = self.newly_numbered(Asked(chain, command), self.begin(deadline))
        except Open as fault:
            raise fault.fault
        if not isinstance(told, Mismatch):
            raise BadReply(f"another reply than a mismatch: {told}")
        return time.perf_counter() - began

    # Several requests in one frame.

    def asks_set(self, key: Key, value: bytes, *, chain: ChainName = 0, node: Optional[int] = None,
                 number: Optional[int] = None) -> Asked:
        """Returns a write for `many`."""
        return self.asks(chain, lambda at: wire.put(at, key, value), node, number)

    def asks_cas(self, key: Key, version: int, value: bytes, *, chain: ChainName = 0,
                 node: Optional[int] = None, number: Optional[int] = None) -> Asked:
        """Returns a `cas` for `many`."""
        return self.asks(chain, lambda at: wire.test_and_set(at, key, version, value), node, number)

    def asks_add(self, key: Key, by: int = 1, *, chain: ChainName = 0, node: Optional[int] = None,
                 number: Optional[int] = None) -> Asked:
        """Returns an `add` for `many`."""
        return self.asks(chain, lambda at: wire.increment(at, key, by), node, number)

    def asks_txn(self, compares: Iterable[tuple[Key, int]] = (), reads: Iterable[Key] = (),
                 writes: Iterable[tuple[Key, bytes]] = (), *, chain: ChainName = 0,
                 node: Optional[int] = None, number: Optional[int] = None) -> Asked:
        """Returns a transaction for `many`."""
        lists = list(compares), list(reads), list(writes)
        return self.asks(chain, lambda at: wire.mini(at, *lists), node, number)

    def asks(self, chain: ChainName, encode: Callable[[int], bytes], node: Optional[int],
             number: Optional[int]) -> Asked:
        """Returns the update that `encode` makes for the id of a chain. What cannot be encoded is refused
        before a name of a chain is looked up at the server."""
        wire.check_number(number)
        command = encode(chain if isinstance(chain, int) else 0)
        at = self.chain_id(chain)
        return Asked(at, command if isinstance(chain, int) else encode(at), number, node)

    def asks_update(self, chain: int, command: bytes, *, node: Optional[int] = None,
                    number: Optional[int] = None) -> Asked:
        """Returns an encoded command for `many`."""
        wire.check_number(number)
        return Asked(chain, command, number, node)

    def asks_get(self, key: Key, *, mode: bytes = wire.STRONG, chain: ChainName = 0,
                 node: Optional[int] = None) -> Asked:
        """Returns a read for `many`."""
        wire.key_bytes(key)
        return Asked(self.chain_id(chain), None, None, node, mode, key)

    def many(self, asked: Sequence[Asked]) -> list[Union[Told, Refused]]:
        """Asks up to eight requests in one frame, and returns their replies in order.

        A refused one is a Refused in the list, and is not retried. A lost connection is retried,
        with the numbers of the updates. Raises Open if it is lost each time and updates are in it.
        """
        if not 1 <= len(asked) <= wire.MANY_LIMIT:
            raise ValueError(f"a frame has 1 to {wire.MANY_LIMIT} requests, and not {len(asked)}")
        with contextlib.ExitStack() as due:
            fresh = self.taken(due, asked)
            numbers = [None if it.command is None else next(fresh[it.chain]) if it.number is None
                       else it.number for it in asked]
            return self.asked_at_once(asked, numbers)

    def taken(self, due: contextlib.ExitStack, asked: Sequence[Asked]) -> dict[int, Iterator[int]]:
        """Issues the numbers that these updates lack, by chain, due until the stack ends."""
        lacking = [it.chain for it in asked if it.command is not None and it.number is None]
        return {it: iter(due.enter_context(self.numbers.take(it, lacking.count(it))))
                for it in sorted(set(lacking))}

    def asked_at_once(self, asked: Sequence[Asked],
                      numbers: Sequence[Optional[int]]) -> list[Union[Told, Refused]]:
        """Asks these in one frame until the frame is answered."""
        tried = self.begin()

        def attempt(limit: Deadline) -> list[Reply]:
            requests = [self.request(it, number, limit) for it, number in zip(asked, numbers)]
            with tried.sending():
                return self.exchange(wire.many(requests), [kind for kind, _ in requests], limit)

        try:
            return [it.told for it in self.retried(attempt, asked[0].chain, tried)]
        except (OSError, BadReply, Refused) as fault:
            used = [it for it in numbers if it is not None]
            if used and tried.may_be_done:
                raise Open(self.id, used, fault) from fault
            raise

    def request(self, it: Asked, number: Optional[int], limit: Deadline) -> Request:
        """Encodes a request of `many` for the present members."""
        if it.command is not None and number is not None:
            node = self.head(it.chain, limit) if it.node is None else it.node
            return wire.update_request(node, self.shown, self.id, number, it.command)
        node = random.choice(self.chain(it.chain, limit).members) if it.node is None else it.node
        return wire.read_request(node, self.shown, it.mode, it.chain, it.key)

    # The chains as they were last told.

    def refresh(self, limit: Deadline) -> list[Chain]:
        """Asks for the chains and remembers them."""
        told = self.ask((wire.STATUS, b""), limit)
        try:
            chains = json.loads(str(told))["chains"]
            self.known = [Chain(at, it["name"], it["epoch"], it["members"]) for at, it in enumerate(chains)]
        except (ValueError, KeyError, TypeError) as fault:
            raise BadReply("a status that is no list of chains") from fault
        return self.known

    def chain(self, chain: int, limit: Deadline) -> Chain:
        """Returns a chain. Raises Refused(7) if there is no such chain."""
        known = self.known or self.refresh(limit)
        if not 0 <= chain < len(known):
            raise Refused(7)
        return known[chain]

    def chain_id(self, chain: ChainName) -> int:
        """Returns the id of a chain given by id, by name or, if no chain has that name, by the digits of its
        id. Raises Refused(7) if there is none."""
        if isinstance(chain, int):
            return chain
        known = self.known or self.members()
        found = [it.id for it in known if it.name == chain] or [it.id for it in known if str(it.id) == chain]
        if not found:
            raise Refused(7)
        return found[0]

    def head(self, chain: int, limit: Deadline) -> int:
        """Returns the node that updates of a chain go to."""
        return self.chain(chain, limit).members[0]

    def moves(self, chain: int, head: int) -> None:
        """Remembers another head, as a refusal told it."""
        with self.lock:
            known = list(self.known)
            it = known[chain]
            known[chain] = Chain(chain, it.name, it.epoch,
                                 [head] + [node for node in it.members if node != head])
            self.known = known

    # One exchange.

    def begin(self, deadline: Optional[Deadline] = None) -> Tries:
        """Returns the tries of a request that begins now: until a deadline, or for the client's seconds."""
        return Tries(deadline or Deadline(self.deadline), self.patience)

    def retried(self, attempt: Callable[[Deadline], T], chain: Optional[int], tried: Tries) -> T:
        """Repeats the attempt after a lost connection or a passing refusal, `tries` times in all, until
        the deadline."""
        while True:
            tried.count += 1
            try:
                return attempt(tried.limit())
            except (OSError, Refused) as fault:
                lasts = isinstance(fault, Refused) and fault.number not in wire.PASSING
                gone = isinstance(fault, NoConnection) and tried.count >= UNANSWERED
                if lasts or gone or tried.count >= self.tries:
                    raise
                self.prepare(fault, chain, tried)
                if not tried.deadline.left():
                    raise

    def prepare(self, fault: Exception, chain: Optional[int], tried: Tries) -> None:
        """Prepares the next try: goes to the head that a refusal names, or waits and asks for the chains."""
        is_redirect = isinstance(fault, Refused) and fault.number == wire.NOT_HEAD and fault.detail
        if is_redirect and chain is not None:
            self.moves(chain, fault.detail)
            return
        time.sleep(min(PAUSE * tried.count, tried.deadline.left()))
        if chain is not None and self.known:
            with contextlib.suppress(OSError, Refused):
                self.refresh(tried.limit())

    def ask(self, request: Request, limit: Deadline) -> Told:
        """Asks one request once, and raises what it is refused with."""
        told = self.exchange(wire.one(1, request), [request[0]], limit)[0].told
        if isinstance(told, Refused):
            raise told
        return told

    def exchange(self, payload: bytes, kinds: Sequence[int], limit: Deadline) -> list[Reply]:
        """Asks a payload with requests of these kinds, once; keeps the largest pass of the replies.

        Raises BadReply if they do not fit the requests, a refusal of the whole payload, and an OSError if
        they do not come in time. The connection is then closed, and the pass stays.
        """
        with self.pool.connection(limit) as made:
            made.send(payload)
            replies = wire.replies_of(made.receive())
            check_replies(replies, kinds)
        shown = [it.shown for it in replies if it.shown is not None]
        with self.lock:
            self.shown = max([self.shown, *shown])
        return replies


def check_replies(replies: Sequence[Reply], kinds: Sequence[int]) -> None:
    """Raises BadReply unless each reply is one to a request of its kind.

    Raises a refusal of the whole payload. Refusal 12 may be one of the connection, which the server
    then closes, so it is raised here too.
    """
    told = replies[0].told if replies else None
    if isinstance(told, Refused) and (told.number == wire.PENDING_FULL or len(replies) < len(kinds)):
        raise told
    if len(replies) != len(kinds):
        raise BadReply("another count of replies")
    for reply, kind in zip(replies, kinds):
        if not wire.fits(reply, kind):
            raise BadReply("a reply to another kind of request")


class Tries:
    """The tries of one request: their count, the deadline of all, and whether one may have done it."""

    def __init__(self, deadline: Deadline, patience: float) -> None:
        self.deadline, self.patience = deadline, patience
        self.count, self.may_be_done = 0, False

    def limit(self) -> Deadline:
        """Returns the deadline of a try that begins now."""
        return Deadline(self.patience, self.deadline)

    @contextlib.contextmanager
    def sending(self) -> Iterator[None]:
        """Notes a fault in this block after which the request may have been done."""
        try:
            yield
        except NoConnection:
            raise
        except (OSError, BadReply):
            self.may_be_done = True
            raise
        except Refused as refused:
            self.may_be_done |= refused.number in wire.OPEN
            raise
