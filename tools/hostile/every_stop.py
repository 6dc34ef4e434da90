"""A stop at every move: each node of a stored script stops after each of its moves, and schedules
draw what comes next.

The stored scripts are those of tools/rows/worked that are played, except one of 1,031 lines, whose
moves after the first few are all alike. Every verdict on an explanation has to be
true, with nodes of either core, and both print the same.
"""
from tools.rows import playing, schedules, worked

LONG = ("pending-full",)
CHOICES = 200


def stored():
    """Returns the name, the number of nodes, the text and the wanted output of each stored
    script."""
    rows = [it for it in worked.rows() if it[1][0] == "play" and it[0] not in LONG]
    return [(name, schedules.nodes_of(words), script, expected) for name, words, script, expected in rows]


def moves_taken(script, expected):
    """Returns how many moves a script takes: its lines except empty ones, comments, `explain` and
    those that are refused."""
    lines = [it for it in script.splitlines() if it and not it.startswith(b"#")]
    return len(lines) - lines.count(b"explain") - sum(it.startswith(b"refused")
                                                      for it in expected.splitlines())


def cuts(checks, program):
    """Stops each node of the opening members after each move of each stored script. Returns the
    number of runs."""
    cases = [(*it, node) for it in stored() for node in range(1, it[1] + 1)]

    def stop(case):
        _, nodes, script, _, node = case
        return playing.on_both(program, ["stops", "--nodes", str(nodes), "/dev/stdin", str(node)], script)

    runs = 0
    for (name, _, script, expected, node), (plain, other) in zip(cases, playing.side_by_side(stop, cases)):
        what = f"node {node} stops in {name}"
        checks.that(plain.status == 0 and not plain.errors and schedules.is_cut_by_cut(plain.output),
                    f"{what}: {plain}")
        checks.same(f"{what}, as often as it takes moves, and before them", plain.output.count(b"\n"),
                    moves_taken(script, expected) + 1)
        checks.same(f"{what}, with the other core", other, plain)
        runs += 2 * plain.output.count(b"\n")
    return runs


def drawn(checks, program, seeds):
    """Draws `seeds` schedules of each stored script, and returns the number of runs."""
    cases = [(*it, seed) for it in stored() for seed in range(1, seeds + 1)]

    def draw(case):
        _, nodes, script, _, seed = case
        return playing.on_both(program,
                               ["draw", "--nodes", str(nodes), "/dev/stdin",
                                schedules.choices_of(seed, CHOICES)], script)

    for (name, _, _, _, seed), (plain, other) in zip(cases, playing.side_by_side(draw, cases)):
        what = f"schedule {seed} of {name}"
        is_valid = plain.output.endswith(b"valid true\n") and plain.output.count(b"valid") == 1
        is_well = plain.status == 0 and not plain.errors and is_valid
        checks.that(is_well, f"{what} ends well: {plain.status} {plain.output[-40:]} {plain.errors}")
        checks.same(f"{what}, with the other core", other, plain)
    return 2 * len(cases)


def tried(checks, program, seeds):
    """Runs both parts, and returns what was tried, in words."""
    stops, draws = cuts(checks, program), drawn(checks, program, seeds)
    return f"{len(stored())} scripts, {stops} runs with a stop, {draws} schedules"
