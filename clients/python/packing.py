"""Packs the package `jilsdau` for pip, with the standard library alone, so pip needs no network.

It has the functions that PEP 517 asks of a build backend for a wheel. Name and version stand in
pyproject.toml too; tools/clients/run compares them.
"""
import base64
import hashlib
import os
import zipfile

NAME, VERSION = "jilsdau", "0.1.0"
HERE = os.path.dirname(os.path.realpath(__file__))
INFO = f"{NAME}-{VERSION}.dist-info"
METADATA = f"""\
Metadata-Version: 2.1
Name: {NAME}
Version: {VERSION}
Summary: A client of a Jilsdau store: chain replication with CRAQ reads
License: MIT
Requires-Python: >=3.8
"""
WHEEL = "Wheel-Version: 1.0\nGenerator: packing\nRoot-Is-Purelib: true\nTag: py3-none-any\n"
SCRIPTS = f"[console_scripts]\n{NAME} = {NAME}.command:run\n"


def info():
    """Returns the files of the folder of metadata, by name."""
    return {f"{INFO}/METADATA": METADATA, f"{INFO}/WHEEL": WHEEL, f"{INFO}/entry_points.txt": SCRIPTS}


def sources():
    """Returns the files of the package, by name."""
    found = {}
    for name in sorted(os.listdir(os.path.join(HERE, NAME))):
        if name.endswith((".py", ".typed")):
            with open(os.path.join(HERE, NAME, name), encoding="utf-8") as it:
                found[f"{NAME}/{name}"] = it.read()
    return found


def row(name, text):
    """Returns the line of RECORD for a file: its name, its checksum and its size."""
    data = text.encode()
    digest = base64.urlsafe_b64encode(hashlib.sha256(data).digest()).rstrip(b"=").decode()
    return f"{name},sha256={digest},{len(data)}\n"


def build_wheel(wheel_directory, config_settings=None, metadata_directory=None):
    """Writes the wheel into a folder, and returns its name."""
    files = {**sources(), **info()}
    record = "".join(row(name, text) for name, text in files.items()) + f"{INFO}/RECORD,,\n"
    made = f"{NAME}-{VERSION}-py3-none-any.whl"
    with zipfile.ZipFile(os.path.join(wheel_directory, made), "w", zipfile.ZIP_DEFLATED) as wheel:
        for name, text in {**files, f"{INFO}/RECORD": record}.items():
            wheel.writestr(name, text)
    return made


def prepare_metadata_for_build_wheel(metadata_directory, config_settings=None):
    """Writes the metadata into a folder, and returns the name of its folder."""
    for name, text in info().items():
        file = os.path.join(metadata_directory, name)
        os.makedirs(os.path.dirname(file), exist_ok=True)
        with open(file, "w", encoding="utf-8") as it:
            it.write(text)
    return INFO


def get_requires_for_build_wheel(config_settings=None):
    """Returns what a build needs beside Python: nothing."""
    return []
