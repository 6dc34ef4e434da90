"""Plays scripts by the program, side by side on all processors."""
import os
import subprocess
from concurrent.futures import ThreadPoolExecutor
from typing import NamedTuple

PATIENCE = 120
CORES = ("plain", "list")


class Told(NamedTuple):
    """The output of a program, and its status."""

    status: int
    output: bytes
    errors: bytes


def told(program, words, script):
    """Runs the program with these words on this script, which it reads from standard input where no
    word names a file."""
    ran = subprocess.run([program, *words], input=script, capture_output=True, timeout=PATIENCE)
    return Told(ran.returncode, ran.stdout, ran.stderr)


def with_core(words, core):
    """Returns the words of a command of craq_lab with this core; None names no core."""
    return [words[0], *(["--core", core] if core else []), *words[1:]]


def on_both(program, words, script):
    """Returns what the two cores print of a script."""
    return [told(program, with_core(words, core), script) for core in CORES]


def side_by_side(run, items):
    """Returns the results of the call for the items, in order."""
    with ThreadPoolExecutor(len(os.sched_getaffinity(0))) as pool:
        return list(pool.map(run, items))
