"""Connections to a server: payloads in frames over TCP, and a pool of such connections."""
from __future__ import annotations

import contextlib
import re
import socket
import threading
import time
from typing import Iterator, Optional

from .wire import FRAME_LIMIT, BadReply, number

LATE = "no reply came in time"


def place_of(address: str) -> tuple[str, int]:
    """Splits HOST:PORT, as 127.0.0.1:7000 or [::1]:7000. Raises ValueError if it is no address."""
    host, colon, port = address.rpartition(":")
    if not (colon and host and re.fullmatch("[1-9][0-9]{0,4}", port) and int(port) <= 65535):
        raise ValueError(f"an address is HOST:PORT, as 127.0.0.1:7000, and not {address}")
    return host.strip("[]"), int(port)


class NoConnection(ConnectionError):
    """No connection was made, so nothing was sent."""


class Deadline:
    """The time at which a wait ends: this many seconds from now, or another deadline if it is earlier."""

    def __init__(self, seconds: float, before: Optional[Deadline] = None) -> None:
        self.at = time.monotonic() + seconds
        if before is not None:
            self.at = min(self.at, before.at)

    def left(self) -> float:
        """Returns the seconds that are left, at least 0."""
        return max(0.0, self.at - time.monotonic())

    def some(self) -> float:
        """Returns the seconds that are left. Raises TimeoutError if there are none."""
        left = self.left()
        if not left:
            raise TimeoutError(LATE)
        return left


class Connection:
    """Payloads over TCP, each in a frame.

    A call of the socket waits at most `patience` seconds, or until the deadline once there is one.
    """

    def __init__(self, address: str, patience: float = 10) -> None:
        self.deadline: Optional[Deadline] = None
        self.socket = socket.create_connection(place_of(address), patience)
        self.socket.setsockopt(socket.IPPROTO_TCP, socket.TCP_NODELAY, 1)

    @classmethod
    def over(cls, made: socket.socket) -> Connection:
        """Frames over a connected socket."""
        it = cls.__new__(cls)
        it.socket, it.deadline = made, None
        return it

    @contextlib.contextmanager
    def waiting(self) -> Iterator[None]:
        """Lets a call of the socket wait until the deadline. Raises TimeoutError at the deadline."""
        if self.deadline is not None:
            self.socket.settimeout(self.deadline.some())
        try:
            yield
        except socket.timeout as fault:
            raise TimeoutError(LATE) from fault

    def send(self, *payloads: bytes) -> None:
        """Sends payloads, each in a frame."""
        with self.waiting():
            self.socket.sendall(b"".join(number(4, len(it)) + it for it in payloads))

    def receive(self) -> bytes:
        """Receives the payload of the next frame. Raises BadReply if it is above the limit."""
        size = int.from_bytes(self.bytes(4), "big")
        if size > FRAME_LIMIT:
            raise BadReply("a frame above the limit")
        return self.bytes(size)

    def bytes(self, size: int) -> bytes:
        """Receives this many bytes. Raises ConnectionError if the stream ends before."""
        got = b""
        while len(got) < size:
            with self.waiting():
                more = self.socket.recv(size - len(got))
            if not more:
                raise ConnectionError("the server closed the connection")
            got += more
        return got

    def close(self) -> None:
        """Closes the connection."""
        self.socket.close()


class Pool:
    """Up to `size` connections to one server, each used by one call at a time."""

    def __init__(self, address: str, size: int = 8) -> None:
        place_of(address)
        self.address = address
        self.room, self.lock = threading.BoundedSemaphore(size), threading.Lock()
        self.idle: list[Connection] = []

    @contextlib.contextmanager
    def connection(self, deadline: Deadline) -> Iterator[Connection]:
        """Lends a connection until this deadline. One whose use raises is closed; any other is kept for
        the next call. Raises NoConnection if none is free in time, or none can be opened."""
        if not self.room.acquire(timeout=deadline.left()):
            raise NoConnection(f"no connection to {self.address} was free in time")
        try:
            with self.lock:
                made = self.idle.pop() if self.idle else None
            made = made or self.connect(deadline)
            made.deadline = deadline
            try:
                yield made
            except BaseException:
                made.close()
                raise
            with self.lock:
                self.idle.append(made)
        finally:
            self.room.release()

    def connect(self, deadline: Deadline) -> Connection:
        """Opens a connection. Raises NoConnection with the address and the cause."""
        try:
            return Connection(self.address, deadline.some())
        except OSError as fault:
            raise NoConnection(f"no connection to {self.address}: {fault.strerror or fault}") from fault

    def close(self) -> None:
        """Closes the connections that no call uses. The next call opens another one."""
        with self.lock:
            idle, self.idle = self.idle, []
        for it in idle:
            it.close()
