"""Schedules: what may come next is drawn by numbers, and a node stops after each move.

A schedule ends with whether `check` passes the explanation of its run, which it does of every run.
"""
import re

from tools.rows import playing, worked

CHOICES = 250
NODES = (1, 2, 3, 4)
# Each cut is played from the beginning, so long scripts are left out.
MOST_LINES = 60
CUT = re.compile(rb"cut (\d+) committed \d+ valid true\n")


def choices_of(seed, count=CHOICES):
    """Returns `count` choices of a seed: the upper bits of the numbers of a linear congruential
    generator (that of ANSI C's example of rand)."""
    x, found = seed, []
    for _ in range(count):
        x = (1103515245 * x + 12345) % 2**31
        found.append(x // 65536)
    return ",".join(map(str, found))


def nodes_of_seed(seed):
    return NODES[seed % len(NODES)]


def drawn(checks, program, count):
    """Draws `count` schedules of one script: both cores print the same, and the verdict is true."""
    script = worked.bytes_of("drawn.script")
    seeds = range(1, count + 1)

    def draw(seed):
        return playing.on_both(program,
                               ["draw", "--nodes", str(nodes_of_seed(seed)), "/dev/stdin", choices_of(seed)],
                               script)

    for seed, (plain, other) in zip(seeds, playing.side_by_side(draw, seeds)):
        checks.that(plain.status == 0 and plain.output.endswith(b"valid true\n"),
                    f"schedule {seed} ends well: {plain.output[-40:]} {plain.errors}")
        checks.that(plain.output.count(b"valid") == 1, f"schedule {seed} has one verdict")
        checks.same(f"schedule {seed}", other, plain)


def nodes_of(words):
    return int(words[words.index("--nodes") + 1]) if "--nodes" in words else 3


def is_cut_by_cut(output):
    """Returns whether each line is that of the next cut, from 0 on, with a true verdict."""
    found = [int(it[1]) for it in CUT.finditer(output)]
    return found == list(range(output.count(b"\n"))) and b"cut 0 " in output


def stopped(checks, program):
    """Each node stops after each move of each short worked script: both cores print the same, and
    each verdict is true."""
    plays = [(name, nodes_of(words), script) for name, words, script, _ in worked.rows() if words[0] == "play"
             and script.count(b"\n") <= MOST_LINES]
    cases = [(name, nodes, script, node) for name, nodes, script in plays for node in range(1, nodes + 1)]

    def stop(case):
        _, nodes, script, node = case
        return playing.on_both(program, ["stops", "--nodes", str(nodes), "/dev/stdin", str(node)], script)

    for (name, _, _, node), (plain, other) in zip(cases, playing.side_by_side(stop, cases)):
        checks.that(plain.status == 0 and is_cut_by_cut(plain.output),
                    f"node {node} stops in {name}: {plain}")
        checks.same(f"node {node} stops in {name}", other, plain)
