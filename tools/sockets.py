"""Small helpers for sockets: a free port, frames, and reads of a length or to the end."""
import socket


def free_port():
    """Returns a TCP port of 127.0.0.1 on which nothing listened a moment ago."""
    with socket.create_server(("127.0.0.1", 0)) as it:
        return it.getsockname()[1]


def framed(*payloads):
    """Returns the payloads as frames: each with its length before it, in 4 bytes."""
    return b"".join(len(it).to_bytes(4, "big") + it for it in payloads)


def read_up_to(made, size):
    """Reads this many bytes, or fewer if the peer closes before."""
    got = b""
    while len(got) < size:
        more = made.recv(size - len(got))
        if not more:
            break
        got += more
    return got


def read_to_end(made):
    """Reads until the peer closes or resets the connection."""
    got = b""
    try:
        while more := made.recv(65536):
            got += more
    except ConnectionError:
        pass
    return got
