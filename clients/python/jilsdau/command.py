"""Writes and reads objects of a running store, and looks at its nodes.

Usage: jilsdau [OPTION ..] VERB [WORD ..]

Commands:
  set KEY VALUE             writes the value; VALUE - is read from standard input
  get KEY                   prints the value as it is
  cas KEY VERSION VALUE     writes the value if the object has this version; 0 is never written
  append KEY VALUE          puts the value after what is there
  prepend KEY VALUE         puts the value before what is there
  add KEY [BY]              adds BY, or 1, to the number in the object's 8 bytes
  sub KEY [BY]              subtracts BY, or 1
  txn ITEM ..               reads and writes at one moment, if every compare holds; an ITEM is
                            c:KEY:VERSION, r:KEY or w:KEY:VALUE, where KEY has no colon
  members                   prints each chain with its members, head first
  health                    times a strong read at each member, and then an update through the chain

Options:
  --connect ADDRESS         asks the server there; else CRAQ_CONNECT, else 127.0.0.1:7000
  --chain NAME              a chain by its name, else by its number; without it chain 0
  --node N                  asks this node once; else the head for updates, any member for reads
  --mode MODE               of get: strong, eventual or bounded:K; else strong
  --pass P                  the largest pass that you have: a get is no older than what it stands for
  --print-pass              prints the pass of the reply too
  --client ID               else CRAQ_CLIENT, else an id drawn once and kept in the state folder
  --number N                asks an update again that may have been done; else a new number
  --hex                     values are given and printed as hexadecimal digits
  --decimal                 values of 8 bytes are given and printed as numbers
  --json                    prints a JSON object; a value that is no UTF-8 as "value_hex"
  --help, --version         also -h and -V

Words that begin with - stand behind --. An option without a meaning for the verb is refused. On a
terminal a newline follows the value of get. Exit status:
  0  done
  1  standard input cannot be read, or standard output takes no text
  2  a word is wrong, and nothing was sent
  3  refused by the store
  4  no server answers
  5  nothing was written: mismatch, comparefailed, toolong, notanumber, overflow, underflow, stale
  6  absent: the object was never written
If an update failed and may have been done, standard error has the command that asks it again.
"""
from __future__ import annotations

import contextlib
import json
import os
import re
import shlex
import shutil
import sys
from typing import Any, Callable, Iterator, NoReturn, Optional, Sequence, Union

from . import __version__, wire
from .client import READ_SECONDS, Client, Health, Open
from .wire import BadReply, Done, Read, Refused, UpdateReply, Written

CANNOT, WRONG, REFUSED, NO_SERVER, NOT_WRITTEN, ABSENT = 1, 2, 3, 4, 5, 6
VALUED = ("--connect", "--chain", "--node", "--mode", "--pass", "--client", "--number")
FLAGS = ("--print-pass", "--hex", "--decimal", "--json")
# Of each verb the options that have no meaning for it.
MEANINGLESS = {
    **dict.fromkeys(("set", "cas", "append", "prepend", "txn"), ("--mode",)),
    **dict.fromkeys(("add", "sub"), ("--mode", "--hex", "--decimal")),
    "get": ("--client", "--number"),
    "members": ("--node", "--chain", "--mode", "--client", "--number", "--hex", "--decimal", "--print-pass"),
    "health": ("--node", "--mode", "--number", "--hex", "--decimal", "--print-pass"),
}


class Wrong(Exception):
    """A word of the command line that is not what is expected there."""


class CannotUse(Exception):
    """Standard output takes no text, or standard input cannot be read."""


@contextlib.contextmanager
def using(stream: str) -> Iterator[None]:
    """Raises CannotUse if a standard stream fails in this block."""
    try:
        yield
    except OSError as fault:
        raise CannotUse(f"cannot use {stream}: {fault.strerror or fault}") from fault


class Options:
    """The options of a command line."""

    def __init__(self, given: dict[str, str]) -> None:
        self.given = given
        self.connect: Optional[str] = given.get("--connect")
        self.chain: Union[int, str] = given.get("--chain", 0)
        self.mode = mode_of(given.get("--mode", "strong"))
        self.node, self.client = self.number_of("--node", 2 ** 32), self.number_of("--client", 2 ** 64)
        self.number, self.shown = self.number_of("--number", 2 ** 64), self.number_of("--pass", 2 ** 64) or 0
        if self.number == 0:
            raise Wrong("--number needs a number of at least 1")
        if self.has("--hex") and self.has("--decimal"):
            raise Wrong("--hex and --decimal do not go together")

    def number_of(self, name: str, limit: int) -> Optional[int]:
        return number_of(self.given[name], limit, name) if name in self.given else None

    def has(self, flag: str) -> bool:
        return flag in self.given


def number_of(word: str, limit: int, what: str) -> int:
    """Decodes a number below a limit: decimal digits without a leading zero."""
    if not (re.fullmatch("0|[1-9][0-9]*", word) and int(word) < limit):
        raise Wrong(f"{what} needs a number below {limit} without leading zeros, and not {word!r}")
    return int(word)


def mode_of(word: str) -> bytes:
    """Decodes the mode of a read."""
    if word.startswith("bounded:"):
        return wire.bounded(number_of(word.partition(":")[2], 2 ** 32, "bounded:"))
    if word not in ("strong", "eventual"):
        raise Wrong(f"--mode needs strong, eventual or bounded:K, and not {word!r}")
    return wire.STRONG if word == "strong" else wire.EVENTUAL


def options_of(words: Sequence[str]) -> tuple[Options, list[str]]:
    """Decodes the options, which stand before the verb or between its words; '--' ends them."""
    given: dict[str, str] = {}
    left, rest = list(words), []
    while left:
        word = left.pop(0)
        name, equals, value = word.partition("=")
        if word == "--":
            rest += left
            break
        if name in given:
            raise Wrong(f"{name} is given twice")
        if word in FLAGS:
            given[word] = ""
        elif name in VALUED:
            if not equals and (not left or left[0].startswith("-")):
                raise Wrong(f"{name} needs a word after it")
            given[name] = value if equals else left.pop(0)
        elif word.startswith("-") and word != "-":
            raise Wrong(f"there is no option {word}; words that begin with - stand behind --")
        else:
            rest.append(word)
    return Options(given), rest


def key_of(word: str) -> bytes:
    """Returns the bytes of a key as the shell gave them."""
    key = os.fsencode(word)
    if not 1 <= len(key) <= 128:
        raise Wrong(f"a key has 1 to 128 bytes, and this one has {len(key)}")
    return key


def read_value() -> bytes:
    """Reads the bytes of a value from standard input."""
    with using("standard input"):
        return sys.stdin.buffer.read(4097 * 3)


def decoded(value: bytes, options: Options) -> bytes:
    """Returns the bytes that a value stands for by its form: itself, digits, or a number."""
    if options.has("--hex"):
        if not re.fullmatch(b"([0-9a-f]{2})*", value):
            raise Wrong("with --hex a value is pairs of hexadecimal digits in lower case")
        return bytes.fromhex(value.decode())
    if options.has("--decimal"):
        return number_of(os.fsdecode(value), 2 ** 64, "with --decimal a value").to_bytes(8, "big")
    return value


def limited(value: bytes) -> bytes:
    """Returns the value. Raises Wrong if it is too long."""
    if len(value) > 4096:
        raise Wrong("a value has at most 4096 bytes")
    return value


def value_of(word: str, options: Options) -> bytes:
    """Returns the bytes of a value, which is the word or, if that is '-', standard input."""
    return limited(decoded(read_value() if word == "-" else os.fsencode(word), options))


# The requests of the verbs. Each function takes a client, its options and its words, and returns the
# call to make.

Call = Callable[[Client], Any]


def expect(words: Sequence[str], *names: str, optional: int = 0) -> None:
    """Raises Wrong unless there are as many words as names, of which the last may be missing."""
    if not len(names) - optional <= len(words) <= len(names):
        raise Wrong(f"expected {' '.join(names) or 'no more words'}, and found {shlex.join(words) or 'none'}")


def where(options: Options) -> dict[str, Any]:
    return {"chain": options.chain, "node": options.node, "number": options.number}


def plan_value(verb: str, options: Options, words: Sequence[str]) -> Call:
    expect(words, "KEY", "VALUE")
    key, value = key_of(words[0]), value_of(words[1], options)
    return lambda store: getattr(store, verb)(key, value, **where(options))


def plan_count(verb: str, options: Options, words: Sequence[str]) -> Call:
    expect(words, "KEY", "BY", optional=1)
    key, by = key_of(words[0]), number_of(words[1], 2 ** 64, "BY") if len(words) > 1 else 1
    return lambda store: getattr(store, verb)(key, by, **where(options))


def plan_cas(_: str, options: Options, words: Sequence[str]) -> Call:
    expect(words, "KEY", "VERSION", "VALUE")
    key, version = key_of(words[0]), number_of(words[1], 2 ** 64, "VERSION")
    value = value_of(words[2], options)
    return lambda store: store.cas(key, version, value, **where(options))


def plan_get(_: str, options: Options, words: Sequence[str]) -> Call:
    expect(words, "KEY")
    key = key_of(words[0])
    return lambda store: store.get(key, mode=options.mode, chain=options.chain, node=options.node)


def plan_txn(_: str, options: Options, words: Sequence[str]) -> Call:
    compares, reads, writes = [], [], []
    for word in words:
        kind, _, rest = word.partition(":")
        key, colon, value = rest.partition(":")
        if kind == "r" and rest and not colon:
            reads.append(key_of(key))
        elif kind == "c" and colon:
            compares.append((key_of(key), number_of(value, 2 ** 64, "VERSION")))
        elif kind == "w" and colon:
            writes.append((key_of(key), limited(decoded(os.fsencode(value), options))))
        else:
            raise Wrong(f"an item is c:KEY:VERSION, r:KEY or w:KEY:VALUE, and not {word!r}")
    lists = [[it[0] for it in compares], reads, [it[0] for it in writes]]
    if not words or any(len(it) > 16 or len(set(it)) < len(it) for it in lists):
        raise Wrong("a transaction has 1 item or more, at most 16 of a kind, and none has a key twice")
    return lambda store: store.txn(compares, reads, writes, **where(options))


def plan_members(_: str, options: Options, words: Sequence[str]) -> Call:
    expect(words)
    return lambda store: store.members()


def plan_health(_: str, options: Options, words: Sequence[str]) -> Call:
    expect(words)
    return lambda store: store.health(chain=options.chain, seen=print_nothing if options.has("--json")
                                      else print_member)


VERBS: dict[str, Callable[[str, Options, Sequence[str]], Call]] = {
    "set": plan_value, "get": plan_get, "cas": plan_cas, "append": plan_value, "prepend": plan_value,
    "add": plan_count, "sub": plan_count, "txn": plan_txn, "members": plan_members, "health": plan_health,
}


# Output.

def name_of(told: Any) -> str:
    return type(told).__name__.lower()


def shown_value(value: bytes, options: Options) -> bytes:
    """Returns a value as it is printed."""
    if options.has("--hex"):
        return value.hex().encode()
    if options.has("--decimal") and len(value) == 8:
        return str(int.from_bytes(value, "big")).encode()
    return value


def print_told(told: Any, options: Options) -> None:
    """Prints a reply as text."""
    out = sys.stdout.buffer
    if isinstance(told, Read):
        out.write(shown_value(told.value, options))
        is_line = any(map(options.has, ("--hex", "--decimal", "--print-pass"))) or sys.stdout.isatty()
        out.write(b"\n" if is_line and told.version else b"")
    elif isinstance(told, Done):
        out.write(b"done\n")
        for it in told.reads:
            out.write(b"%d " % it.version + shown_value(it.value, options) + b"\n")
    elif isinstance(told, Health):
        print_update(told)
    elif isinstance(told, list):
        out.writelines(f"{it.name}: {' '.join(map(str, it.members))}\n".encode() for it in told)
    else:
        out.write((" ".join([name_of(told), *map(str, vars(told).values())]) + "\n").encode())


def reason_of(result: Exception) -> str:
    """Returns why a member gave no time."""
    if not isinstance(result, Refused):
        return f"no reply within {READ_SECONDS} s"
    return "stopped" if result.number == wire.STOPPED else f"refused {result}"


def print_nothing(_node: int, _result: Union[float, Exception]) -> None:
    """Prints nothing of a member."""


def print_member(node: int, result: Union[float, Exception]) -> None:
    """Prints the line of a member at once."""
    told = reason_of(result) if isinstance(result, Exception) else f"{result * 1000:.2f} ms"
    with using("standard output"):
        print(f"node {node} {told}", flush=True)


def print_update(told: Health) -> None:
    """Prints the time of the update, or that none was tried."""
    if told.update is not None:
        sys.stdout.buffer.write(f"update {told.update * 1000:.2f} ms\n".encode())
    elif told.stopped():
        sys.stdout.buffer.write(b"update not tried\n")


def advise(told: Health) -> None:
    """Tells what to do about stopped members."""
    name = told.chain.name
    if told.stopped() and told.is_lost():
        tell(f"no ready member of chain {name} runs, and its data is lost: start the server again")
        return
    for node in told.stopped():
        tell(f"remove the stopped node {name}/{node}: updates wait until then")


def json_value(it: Read, options: Options) -> dict[str, Any]:
    """Returns a value that was read as a part of a JSON object."""
    if options.has("--decimal") and len(it.value) == 8:
        return {"version": it.version, "number": int.from_bytes(it.value, "big")}
    with contextlib.suppress(UnicodeDecodeError):
        if not options.has("--hex"):
            return {"version": it.version, "value": it.value.decode()}
    return {"version": it.version, "value_hex": it.value.hex()}


def json_of(told: Any, options: Options) -> dict[str, Any]:
    """Returns a reply as a JSON object."""
    if isinstance(told, Read):
        return {"reply": "read", **json_value(told, options)}
    if isinstance(told, Done):
        return {"reply": "done", "reads": [json_value(it, options) for it in told.reads]}
    if isinstance(told, Health):
        failed = {node: reason_of(fault) for node, fault in told.failed.items()}
        times = {"update_seconds": told.update, "read_seconds": told.reads}
        return {**times, "failed": failed} if failed else times
    if isinstance(told, list):
        return {"chains": [vars(it) for it in told]}
    return {"reply": name_of(told), **vars(told)}


def status_of(told: Any) -> int:
    """Returns the exit status of a reply."""
    if isinstance(told, Health):
        is_silent = not all(isinstance(it, Refused) for it in told.failed.values())
        return NO_SERVER if is_silent else REFUSED if told.failed else 0
    if isinstance(told, Read):
        return 0 if told.version else ABSENT
    is_update = isinstance(told, UpdateReply.__args__)  # type: ignore[attr-defined]
    return NOT_WRITTEN if is_update and not isinstance(told, (Written, Done)) else 0


# The command.

def tell(text: str) -> None:
    print(f"jilsdau: {text}", file=sys.stderr)


def tell_refused(refused: Refused) -> None:
    tell(f"refused {refused}")


def tell_open(fault: Open, words: Sequence[str]) -> None:
    """Tells the command that asks an update again, which may have been done."""
    kept = list(words)
    for name in "--client", "--number":
        kept = without(kept, name)
    again = [*this_program(), "--client", str(fault.client), "--number", str(fault.numbers[0]), *kept]
    given = " with the same standard input" if any(it == "-" or it.endswith(":-") for it in words) else ""
    tell(f"it may have been done. This asks it again{given}, and it is done once:\n  {shlex.join(again)}")


def this_program() -> list[str]:
    """Returns the words that run this command: itself if it is installed, else Python with its folder."""
    own = sys.argv[0]
    if os.path.isfile(own) and os.access(own, os.X_OK):
        return ["jilsdau" if shutil.which("jilsdau") == os.path.abspath(own) else own]
    return ["python3", own]


def without(words: Sequence[str], name: str) -> list[str]:
    """Returns the words without this option."""
    if name not in words:
        return [it for it in words if not it.startswith(name + "=")]
    at = list(words).index(name)
    return [*words[:at], *words[at + 2:]]


def call_of(words: Sequence[str]) -> tuple[Options, Call]:
    """Decodes a command line: its options, and the call to make."""
    options, rest = options_of(words)
    if not rest or rest[0] not in VERBS:
        told = f"there is no verb {rest[0]}" if rest else "expected a verb"
        raise Wrong(f"{told}: {' '.join(VERBS)}")
    for option in MEANINGLESS[rest[0]]:
        if options.has(option):
            raise Wrong(f"{option} has no meaning for {rest[0]}")
    return options, VERBS[rest[0]](rest[0], options, rest[1:])


def print_all(told: Any, options: Options, shown: int) -> None:
    """Prints a reply, and the pass if the options ask for it."""
    with using("standard output"):
        if options.has("--json"):
            print(json.dumps({**json_of(told, options), "pass": shown}))
        else:
            print_told(told, options)
            if options.has("--print-pass"):
                sys.stdout.buffer.write(f"pass {shown}\n".encode())
        sys.stdout.flush()


def asked(words: Sequence[str]) -> int:
    """Asks what the command line says, prints the reply, and returns the exit status."""
    options, call = call_of(words)
    with Client(options.connect, client=options.client, shown=options.shown) as store:
        told = call(store)
        print_all(told, options, store.shown)
    if isinstance(told, Read) and not told.version and not options.has("--json"):
        tell("absent: the object was never written")
    if isinstance(told, Health):
        advise(told)
        if told.fault is not None:
            raise told.fault
    return status_of(told)


def outcome(words: Sequence[str]) -> int:
    """Asks, tells a fault on standard error, and returns the exit status."""
    try:
        return asked(words)
    except (Wrong, ValueError, OverflowError) as wrong:
        tell(f"{wrong}\njilsdau --help tells more")
        return WRONG
    except Open as fault:
        cause = fault.fault
        if isinstance(cause, Refused):
            tell_refused(cause)
        else:
            tell(str(cause))
        tell_open(fault, words)
        return REFUSED if isinstance(cause, Refused) else NO_SERVER
    except Refused as refused:
        tell_refused(refused)
        return REFUSED
    except BadReply as fault:
        tell(f"the server sent no reply: {fault}")
        return NO_SERVER


def asks(words: Sequence[str], *names: str) -> bool:
    """Returns true if one of these options stands before '--'."""
    before = list(words)[:list(words).index("--")] if "--" in words else words
    return any(it in names for it in before)


def printed(text: str) -> int:
    """Prints a text that was asked for. Returns the exit status."""
    with using("standard output"):
        print(text)
        sys.stdout.flush()
    return 0


def main(words: Optional[Sequence[str]] = None) -> int:
    """Does what the command line asks, and returns the exit status."""
    words = sys.argv[1:] if words is None else words
    told = (__doc__ or "").strip()
    try:
        if not words:
            print(told, file=sys.stderr)
            return WRONG
        if words[0] == "help" or asks(words, "--help", "-h"):
            return printed(told)
        if asks(words, "--version", "-V"):
            return printed(f"jilsdau {__version__}")
        return outcome(words)
    except CannotUse as fault:
        tell(str(fault))
        return CANNOT
    except TimeoutError:
        tell("the server did not answer in time")
        return NO_SERVER
    except OSError as fault:
        tell(fault.strerror or str(fault))
        return NO_SERVER


def open_closed_streams() -> None:
    """Opens a file in place of each standard stream that is closed, so that no socket takes its number.

    Then a read of standard input fails, as a write to standard output does; standard error takes each text.
    """
    for number, mode in enumerate((os.O_WRONLY, os.O_RDONLY, os.O_WRONLY)):
        try:
            os.fstat(number)
        except OSError:
            os.open(os.devnull, mode)
    if sys.stdin is None:
        sys.stdin = open(0, encoding="utf-8", closefd=False)
    if sys.stdout is None:
        sys.stdout = open(1, "w", encoding="utf-8", closefd=False)
    if sys.stderr is None:
        sys.stderr = open(2, "w", encoding="utf-8", closefd=False)


def run() -> NoReturn:
    """Runs the command as a process."""
    open_closed_streams()
    try:
        status = main()
    except OSError:
        status = CANNOT  # standard error takes no text
    try:
        sys.stdout.flush()
    except OSError:
        os.dup2(os.open(os.devnull, os.O_WRONLY), 1)
        status = status or CANNOT
    sys.exit(status)
