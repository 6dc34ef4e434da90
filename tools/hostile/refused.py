"""Each ask for memory refused in turn, in the programs as they were built.

A library that is loaded before the programs' own (refusals.c) refuses the Nth one alone. craq_lab
plays scripts: it prints what it prints with ample memory, or ends with `no memory` and prints
nothing of the script. Since it ends then, this shows nothing of a move that is tried again after a
refusal.

Which asks are in a step of a node, say, is counted by the names that the program has of its calls:
a move that takes nothing asks for no memory there. Where a program has no such names, or its calls
do not keep frames, that is left out, and so said: programs that are built without proofs (`rt try`)
keep them, those of the gate and of ./build do not.
"""
import itertools
import os
import re
import subprocess
import tempfile
from typing import NamedTuple

from tools.hostile import every_stop
from tools.rows import playing, worked

SOURCE = os.path.join(os.path.dirname(os.path.realpath(__file__)), "refusals.c")
PLAYED = ("put-then-read-everywhere", "acknowledged-while-a-query-travels", "join-while-the-tail-is-removed",
          "mini-transactions", "copy-in-parts",
          "stops-at-the-head", "draw-one-schedule")
# Calls whose asks for memory are counted by themselves, where the program has them by name.
LAB_CALLS = {"Core::step": r"craq_node::node_core::\w+::step::",
             "ChainCore::take": r"craq_chain::chain::ChainCore::take::",
             "explain_run": r"craq_explain::replay::explain_run_of$", "check": r"craq_check::verdict::check$"}
PATIENCE, NO_MEMORY = 60, 3


class Library:
    """The library, built for this once, and the environment that loads it."""

    def __init__(self, folder):
        self.folder, self.made = folder, itertools.count()
        self.file = os.path.join(folder, "refusals.so")
        subprocess.run(["cc", "-O1", "-fno-omit-frame-pointer", "-fPIC", "-shared", "-o", self.file, SOURCE],
                       check=True)

    def refusing(self, **what):
        """Returns the environment of a program, with the file to which the library writes."""
        told = os.path.join(self.folder, f"told-{next(self.made)}")
        return {"LD_PRELOAD": self.file, "REFUSE_TOLD": told,
                **{f"REFUSE_{name.upper()}": str(it) for name, it in what.items()}}


class Under(NamedTuple):
    """The report of the library about a program.

    `refused` is true if something was refused. `memory` and `threads` are the numbers of allocations
    and of started threads that counted, as last reported. The library reports them `tells` times: at
    the end of each call of REFUSE_CALL, and at the end of a program that ends by `exit`. `before` is
    the number of calls that had ended at the first refusal, so the place of the refused call from 0.
    `keeps_block` is true if a block was to become smaller then.
    """

    refused: bool
    memory: int
    threads: int
    tells: int
    before: int
    keeps_block: bool


def told_in(env):
    """Returns what the library wrote to its file, and removes the file."""
    try:
        with open(env["REFUSE_TOLD"], encoding="ascii") as it:
            text = it.read()
        os.unlink(env["REFUSE_TOLD"])
    except FileNotFoundError:
        text = ""
    counts = re.findall(r"memory (\d+) threads (\d+)\n", text)
    memory, threads = map(int, counts[-1]) if counts else (0, 0)
    before = text.partition("refused\n")[0].count("\n")
    keeps_block = "refused\nsmaller\n" in text
    return Under("refused\n" in text, memory, threads, len(counts), before, keeps_block)


def keeps_frames(program, start):
    """Returns whether the call that begins there links its frame to that of its caller, as the library
    needs it."""
    words = ["objdump", "-d", f"--start-address={start}", f"--stop-address={start + 8}", program]
    text = subprocess.run(words, capture_output=True, text=True, errors="replace").stdout
    return bool(re.search(r"push +%rbp\n.*mov +%rsp,%rbp\n", text))


def ranges(program, pattern):
    """Returns the addresses of the calls of this name, as the library takes them. Empty if it does
    not see them: they have no name, or do not keep frames."""
    found = []
    for line in subprocess.run(["nm", "-S", "--defined-only", program], capture_output=True, text=True,
                               errors="replace").stdout.splitlines():
        words = line.split(None, 3)
        if len(words) == 4 and re.match(pattern, words[3]):
            start, size = int(words[0], 16), int(words[1], 16)
            if not keeps_frames(program, start):
                return ""
            found.append(f"{start:x}-{start + size:x}")
    return ",".join(found)


def plays():
    """Yields the words, the text and the wanted output of each script, with either core."""
    rows = {name: (words, script, expected) for name, words, script, expected in worked.rows()}
    for name in PLAYED:
        words, script, expected = rows[name]
        words = ["/dev/stdin" if it == worked.SCRIPT else it for it in words]
        for core in playing.CORES:
            yield f"{name} with {core}", playing.with_core(words, core), script, expected


def told_under(library, program, words, script, **what):
    """Returns the status and the output of the program under the library, and what the library wrote."""
    env = library.refusing(**what)
    ran = subprocess.run([program, *words], input=script, capture_output=True, timeout=PATIENCE, env=env)
    return playing.Told(ran.returncode, ran.stdout, ran.stderr), told_in(env)


def played(checks, library, program):
    """Plays a script once for each ask for memory, which is refused. Returns their number, and how
    many asks each named call has."""
    refused = 0
    within = {name: ranges(program, pattern) for name, pattern in LAB_CALLS.items()}
    asked = {name: 0 for name, found in within.items() if found}
    for what, words, script, expected in plays():
        told, under = told_under(library, program, words, script)
        asks = under.memory
        checks.same(f"{what}, with ample memory", told, playing.Told(0, expected, b""))
        checks.that(asks > 0, f"{what} asks for memory")
        for name in asked:
            asked[name] += told_under(library, program, words, script, within=within[name])[1].memory
        numbers = range(1, asks + 2)
        runs = playing.side_by_side(lambda at: told_under(library, program, words, script, memory=at),
                                    numbers)
        for at, (told, under) in zip(numbers, runs):
            fits = told in (playing.Told(0, expected, b""), playing.Told(NO_MEMORY, b"", b"no memory\n"))
            checks.that(fits, f"{what}, ask for memory {at} refused: {told}")
            checks.same(f"{what}: whether ask for memory {at} of {asks} was refused", under.refused,
                        at <= asks)
            refused += under.refused
    return refused, asked


def quiet(checks, library, program):
    """Checks that an ignored message and a stop ask for no memory in the step of a node. Returns
    the number of moves and the reasons that were seen."""
    step, seen, reasons = ranges(program, LAB_CALLS["Core::step"]), 0, set()
    cases = [(name, nodes, script.splitlines(keepends=True), core) for name, nodes, script,
             _ in every_stop.stored() for core in playing.CORES]

    def prefixes(case):
        _, nodes, lines, core = case
        words = playing.with_core(["play", "--nodes", str(nodes), "/dev/stdin"], core)
        return [told_under(library, program, words, b"".join(lines[:size]), within=step)
                for size in range(len(lines) + 1)]

    for (name, _, lines, core), runs in zip(cases if step else [],
                                            playing.side_by_side(prefixes, cases if step else [])):
        for line, (before, asks), (after, more) in zip(lines, runs, runs[1:]):
            said = after.output[len(before.output):].decode()
            if said.startswith("ignored ") or line.startswith(b"stop ") and said == "ok\n":
                checks.same(f"asks for memory in the step of {line.decode().strip()} in {name} with {core}, "
                            f"which is told {said.strip()}", more.memory, asks.memory)
                seen += 1
                reasons.add(said.strip() if said != "ok\n" else "stop")
    checks.that(not step or "stop" in reasons and len(reasons) > 1,
                f"the scripts have messages that are ignored, and stops: {reasons}")
    return seen, sorted(reasons)


def tried(checks, craq_lab):
    """Tries all of them, and returns what was tried, in words."""
    with tempfile.TemporaryDirectory(prefix="refused-") as folder:
        library = Library(folder)
        scripts, asks = played(checks, library, craq_lab)
        moves, reasons = quiet(checks, library, craq_lab)
    named = ", ".join(f"{count} in {name}" for name, count in asks.items())
    seen = "this program does not show in which call"
    if named:
        seen = f"{named}; {moves} moves allocate nothing: {', '.join(reasons)}"
    return f"{scripts} refused allocations; {seen}"
