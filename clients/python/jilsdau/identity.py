"""The defaults of a client: the server's address, and the client's id, which is drawn once and kept."""
from __future__ import annotations

import os
import secrets
import tempfile

ADDRESS = "127.0.0.1:7000"


def default_address() -> str:
    """Returns the variable CRAQ_CONNECT, or 127.0.0.1:7000 if it is not set."""
    return os.environ.get("CRAQ_CONNECT") or ADDRESS


def state_file() -> str:
    """Returns the path of the file with the client id, in the state folder of the XDG standard."""
    folder = os.environ.get("XDG_STATE_HOME", "")
    if not os.path.isabs(folder):
        folder = os.path.join(os.path.expanduser("~"), ".local", "state")
    return os.path.join(folder, "jilsdau", "client")


def id_of(text: str, source: str) -> int:
    """Decodes a client id. Raises ValueError unless it is a number from 0 to 2^64 - 1."""
    text = text.strip()
    if not (text.isascii() and text.isdigit() and int(text) < 2 ** 64):
        raise ValueError(f"{source} holds {text!r}, which is no client id: a number below 2^64")
    return int(text)


def default_id() -> int:
    """Returns the variable CRAQ_CLIENT, else the id that is kept, else a new one.

    A new id is kept for the next call. If the folder cannot be written the id serves this once.
    Raises ValueError if the variable or the file holds no id.
    """
    given = os.environ.get("CRAQ_CLIENT")
    if given:
        return id_of(given, "CRAQ_CLIENT")
    file = state_file()
    try:
        return read_id(file)
    except FileNotFoundError:
        drawn = secrets.randbits(64)
    except OSError:
        return secrets.randbits(64)
    try:
        keep_id(file, drawn)
        return read_id(file)
    except OSError:
        return drawn


def read_id(file: str) -> int:
    with open(file, encoding="ascii", errors="replace") as it:
        return id_of(it.read(), file)


def keep_id(file: str, drawn: int) -> None:
    """Writes the id into a new file, whole or not at all. An id that is there already stays."""
    os.makedirs(os.path.dirname(file), mode=0o700, exist_ok=True)
    handle, made = tempfile.mkstemp(dir=os.path.dirname(file))
    try:
        with open(handle, "w", encoding="ascii") as it:
            it.write(f"{drawn}\n")
        os.link(made, file)
    except FileExistsError:
        pass
    finally:
        os.unlink(made)
