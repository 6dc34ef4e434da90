"""Request numbers of a client: nanoseconds since 1970, each above all that it issued before."""
from __future__ import annotations

import contextlib
import threading
import time
from typing import Iterator

# The store keeps the replies to this many of a client's largest numbers, in each chain.
WINDOW = 8
NUMBER_LIMIT = 2 ** 64 - 1


class Numbers:
    """Issues the numbers of one client, by chain.

    A number whose reply is due stays one of the 8 largest: a call waits while a further number
    would push it out. So an update can be asked again with its number for as long as it is due.
    """

    def __init__(self) -> None:
        self.changed = threading.Condition()
        self.last: dict[int, int] = {}
        # The numbers from the smallest whose reply is due, and whether each has its reply.
        self.issued: dict[int, dict[int, bool]] = {}

    @contextlib.contextmanager
    def take(self, chain: int, count: int = 1, above: int = 0) -> Iterator[list[int]]:
        """Issues `count` numbers, at most 8, above `above`; they are due until the block ends."""
        with self.changed:
            issued = self.issued.setdefault(chain, {})
            self.changed.wait_for(lambda: len(issued) + count <= WINDOW)
            first = max(time.time_ns(), self.last.get(chain, 0) + 1, above + 1)
            if first + count > NUMBER_LIMIT:
                raise OverflowError("the numbers of this client are used up")
            taken = list(range(first, first + count))
            self.last[chain] = taken[-1]
            issued.update(dict.fromkeys(taken, False))
        try:
            yield taken
        finally:
            with self.changed:
                issued.update(dict.fromkeys(taken, True))
                while issued and next(iter(issued.values())):
                    del issued[next(iter(issued))]
                self.changed.notify_all()
