"""Refuses each allocation and each thread in turn within one call of the library.

craq_node_tests plays a script by calls, marks the beginning and the end of each, and makes a call
that ran out of memory once more. The library refusals.c refuses the Nth allocation of the calling
thread within the calls of one name, for each N from 1 to the first run that meets no refusal; each
run below that one has to meet its refusal. The program then has to print what it prints with enough
memory, and to say that the call ran out of memory. So a call that tries again by itself is found,
and so is one that takes its step all the same. The output with enough memory has the stored answers
and explanation.

Three kinds of calls may succeed in silence:

- One that makes a block smaller, as a step whose messages go to a journal (`Desk::take`). Without
  memory for that it keeps the block as it is. These count by themselves.
- A step of a node that forgets settled entries (`--core list`). It puts off what it has no memory
  for: the entries that it appended are indexed later, settled ones are applied to the state later.
  So the refused call has to be one that appended an entry, or one that leaves settled entries
  unapplied; the program prints both after each `Core::step` and `World::take`. For each script
  `World::take`, `World::run` and `Desk::take` succeed in silence as often as `Core::step`. If the
  program keeps the names of its calls, the number of silent runs equals the number of allocations
  within those that index and apply entries. The programs of the gate keep no names.
- `Store::join`: a message that the master has no memory to send is lost, and sent again on a tick.
  The silent allocations are the last ones of the call. Some of them make room in the queues to the
  nodes, so their number depends on how far the threads of the nodes have come; the number of those
  before is fixed. Each other call makes exactly as many allocations as with enough memory.

A store starts with as many nodes as the script, with threads of their own and with one chain
thread. A start that fails leaves as many threads as before, a join the membership and the threads:
the program looks at both. A stop and an ignored message allocate nothing in the step of a node: the
scripts have as many of them as the steps that are looked at.
"""
import json
import re
import tempfile

from tools.hostile import every_stop
from tools.hostile.refused import Library, ranges, told_under
from tools.rows import playing

PAYLOADS = ("ClientMessage::decode", "Payload::decode", "ClientReply::decode", "Answered::decode")
WAYS = {"worlds": ("World::take", "World::explain"), "runs": ("World::run",), "steps": ("Core::step",),
        "desks": ("Desk::take",), "audits": ("audit",), "decodes": ("decode",), "payloads": PAYLOADS,
        "plans": ("Plan::read",), "serves": ("serve",), "stores": ("Store::start", "Store::join"),
        "carried": ("Store::start", "Store::join")}
QUIET = "Core::step, quiet"
# The calls that take steps of nodes, by mode. With the core of this kind a step puts off what it has
# no memory for.
STEPS = {"steps": "Core::step", "worlds": "World::take", "runs": "World::run", "desks": "Desk::take"}
PUTS_OFF = "list"
# The calls of the program that index appended entries, and that apply settled ones to the state.
PUT_OFF = (r"craq_compact_state::indexing::list_entries$|craq_compact_state::applying::apply$|"
           r"craq_client_index::places::add_entries$")
# The line that the program prints after a step: the entries that it appended, and the settled ones
# left unapplied.
HISTORY = re.compile(rb"^history: appended (\d+), unfolded (\d+)$", re.M)
# The call whose last allocations are those of the master's messages.
POSTS = ("Store::join",)
# Number of members that a chain has at most.
FULL = 8
# A call that the program tells, and its last answer.
CALL = re.compile(r"call CallReceipt .*?id: (\d+).*?Ticket \{ ticket: (\d+) \}.* answer: "
                  r"(?:Update\()?(\w+)(.*)")


def asks(words, limit):
    """Returns true if a join asks for this. A join at a full chain is refused at once, and one makes
    no thread where one chain thread runs the store."""
    way, _, nodes, _ = words
    return int(nodes) < FULL and (limit == "memory" or way != "carried")


def is_after_its_step(found, ample, call):
    """Returns true if the call took its step and then ran out of memory for the replies of the step:
    the steps are those with enough memory, and some of the replies are missing."""
    if found.status or found.errors != f"no memory after the step of {call}\n".encode():
        return False
    steps, answers = parted(found.output)
    wanted, more = parted(ample.output)
    left = iter(more)
    return steps == wanted and all(it in left for it in answers)


def parted(output):
    """Returns the lines about steps, and the lines about answered calls."""
    lines = output.splitlines()
    return [it for it in lines if not it.startswith(b"call ")], [it for it in lines
                                                                 if it.startswith(b"call ")]


def histories(told):
    """Returns the numbers of the lines about histories, in order: for each step the appended entries,
    and the settled ones left unapplied."""
    return [tuple(map(int, it)) for it in HISTORY.findall(told.output)]


def applied(told):
    """Returns the output as it is if each step applies all settled entries."""
    return told._replace(output=HISTORY.sub(rb"history: appended \1, unfolded 0", told.output))


def puts_off(found, under):
    """Returns true if the refused step appended an entry or left some unapplied, or if no histories
    are printed."""
    told = histories(found)
    return not told or under.before < len(told) and any(told[under.before])


def is_silent(found, ample, call, kind, limit, under):
    """Returns true if the refused call succeeded in silence and was allowed to."""
    if not under.refused or limit != "memory" or found.errors or applied(found) != ample:
        return False
    if call in POSTS or under.keeps_block:
        return True
    return call in STEPS.values() and kind == PUTS_OFF and puts_off(found, under)


def fits(found, ample, call, kind, limit, under):
    """Returns true if the program may tell this after an allocation in a call of this name was
    refused, or none."""
    said = f"no memory for {call}\n".encode() if under.refused else b""
    if found == ample._replace(errors=said) or is_after_its_step(found, ample, call):
        return True
    return is_silent(found, ample, call, kind, limit, under)


def differing(found, ample):
    """Returns where the output differs, in words."""
    lines = [it for it in zip(found.output.splitlines(), ample.output.splitlines()) if it[0] != it[1]]
    return f"status {found.status}, errors {found.errors}, first other line {lines[:1]}"[:600]


def numbers_in(text):
    """Returns the numbers and bytes of a text, in order, in whichever form they are printed."""
    found = []
    for it in re.findall(r"0x[0-9a-f]*|\d+", text):
        found += bytes.fromhex(it[2:]) if it.startswith("0x") else [int(it)]
    return found


def answered(output):
    """Returns the answers that the program prints, each as its node, its ticket, its word and its
    numbers."""
    found = map(CALL.fullmatch, output.decode().splitlines())
    return sorted((int(it[1]), int(it[2]), it[3].lower(), numbers_in(it[4])) for it in found if it)


def stored_answers(expected):
    """Returns the answers of a script in its stored output: node, ticket, word and numbers, sorted."""
    found = re.findall(r"^answer (\d+) (\d+) (\w+)(.*)$", expected.decode(), re.M)
    return sorted((int(node), int(ticket), word, numbers_in(rest)) for node, ticket, word, rest in found)


def explained(output):
    """Returns the numbers of the explanation that the program prints, in order."""
    return numbers_in(output.decode().rpartition("Ok(Explanation {")[2])


def stored_explanation(expected):
    """Returns the numbers of the explanation in the stored output of a script that ends with `explain`."""
    told = json.loads(expected.splitlines()[-1])
    return numbers_in(json.dumps([told[it] for it in ("asks", "lens", "places")]))


def quiet_steps(script, expected):
    """Returns the number of stops and ignored messages of a script, by its stored output."""
    stops = sum(it.startswith(b"stop ") for it in script.splitlines())
    return stops + sum(it.startswith(b"ignored ") for it in expected.splitlines())


class Tried:
    """Counts the refused allocations of each call, and the steps that must allocate nothing."""

    def __init__(self, checks, library, program):
        self.checks, self.library, self.program = checks, library, program
        self.put_off = ranges(program, PUT_OFF)
        self.memory, self.threads, self.silent, self.quiet_steps = {}, {}, {}, 0
        self.kept_blocks = 0

    def each(self, what, words, script, call):
        """Refuses each allocation and each thread of the calls of this name. Returns the output
        with enough memory, and how many runs succeeded in silence."""
        ample, under = told_under(self.library, self.program, words, script, call=call)
        is_sound = ample.status == 0 and not ample.errors and b"refused" not in ample.output
        is_sound = is_sound and ample.output
        self.checks.that(is_sound and applied(ample) == ample, f"{what}: {ample}")
        silent = 0
        limits = ("memory", self.memory, under.memory), ("thread", self.threads, under.threads)
        for limit, of, count in limits:
            runs = self.runs(f"{what}, {call}, {limit}", words, script, call, limit, ample, count)
            silent += sum(runs)
            if call in POSTS:
                asked = f"{what}: whether {call} asks for {limit}"
                self.checks.same(asked, count > 0, asks(words, limit))
                is_last = runs == sorted(runs) and not all(runs)
                last = f"{what}, {call}, {limit}: the silent ones are the last: {runs}"
                self.checks.that(is_last or not count, last)
            of[call] = of.get(call, 0) + len(runs)
        self.silent[call] = self.silent.get(call, 0) + silent
        return ample, silent

    def refused_in_turn(self, words, script, call, limit, count):
        """Refuses the first, the second and so on, at least up to the one after `count`, and up to
        one that a run does not meet. Returns what was told of each, in order."""
        def refusing(at):
            return told_under(self.library, self.program, words, script, call=call, **{limit: at})

        runs = playing.side_by_side(refusing, range(1, count + 2))
        while runs[-1][1].refused and len(runs) < 2 * count:
            runs.append(refusing(len(runs) + 1))
        return runs

    def runs(self, what, words, script, call, limit, ample, count):
        """Checks the runs up to the first that meets no refusal. Returns for each refused one
        whether the call succeeded in silence, other than by keeping a block as it is."""
        runs = self.refused_in_turn(words, script, call, limit, count)
        first = next((at for at, (_, under) in enumerate(runs, 1) if not under.refused), None)
        told = [at for at, (found, _) in enumerate(runs, 1) if found.errors]
        is_right = first and max(told, default=0) < first if call in POSTS else first == count + 1
        seen = f"{first} is the first of {count} that is not met, {told} are told"
        self.checks.that(is_right, f"{what}: {seen}")
        for at, (found, under) in enumerate(runs, 1):
            is_fit = fits(found, ample, call, words[1], limit, under)
            self.checks.that(is_fit, f"{what} {at} of {count} refused: {differing(found, ample)}")
        refused = [(found, under) for found, under in runs if under.refused]
        self.kept_blocks += sum(under.keeps_block and not found.errors for found, under in refused)
        return [not (found.errors or under.keeps_block) for found, under in refused]

    def steps(self, what, words, script, call, silent, wanted):
        """Checks that the steps of the script succeed in silence as often as by `Core::step`, and as
        often as they allocate to index and apply entries."""
        often = f"{what}: how often {call} succeeds in silence"
        self.checks.same(f"{often}, and Core::step", silent, wanted)
        if self.put_off:
            _, under = told_under(self.library, self.program, words, script, call=call, within=self.put_off)
            self.checks.same(f"{often}, and allocates to index and apply entries", silent, under.memory)

    def quiet(self, what, words, script, expected):
        """Checks that a stop and an ignored message allocate nothing, and that there are as many as in
        the script."""
        ample, under = told_under(self.library, self.program, words, script, call=QUIET)
        quiet = f"{what}: stops and ignored messages"
        self.checks.same(f"{quiet}, their allocations", (ample.status, under.memory), (0, 0))
        self.checks.same(quiet, under.tells, quiet_steps(script, expected))
        self.quiet_steps += under.tells

    def script(self, name, nodes, script, expected, kind):
        """Plays a script in each mode, on nodes of this kind."""
        silent = {}
        for way, calls in WAYS.items():
            what, words = f"{name} by {way} on nodes of kind {kind}", [way, kind, str(nodes), "/dev/stdin"]
            for call in calls:
                ample, silent[call] = self.each(what, words, script, call)
            if way == "steps":
                self.quiet(what, words, script, expected)
            if way == "desks":
                answers = answered(ample.output), stored_answers(expected)
                self.checks.same(f"{what}: the stored answers", *answers)
            if way == "worlds" and script.splitlines()[-1:] == [b"explain"]:
                explanations = explained(ample.output), stored_explanation(expected)
                self.checks.same(f"{what}: the stored explanation", *explanations)
        for way, call in STEPS.items():
            what, words = f"{name} by {way} on nodes of kind {kind}", [way, kind, str(nodes), "/dev/stdin"]
            self.steps(what, words, script, call, silent[call], silent[STEPS["steps"]])


def tried(checks, program):
    """Tries each stored script. Returns what was tried, in words."""
    with tempfile.TemporaryDirectory(prefix="refused-") as folder:
        run = Tried(checks, Library(folder), program)
        for name, nodes, script, expected in every_stop.stored():
            for kind in playing.CORES:
                run.script(name, nodes, script, expected, kind)
    memory = ", ".join(f"{count} in {call}" for call, count in run.memory.items())
    threads = ", ".join(f"{count} in {call}" for call, count in run.threads.items() if count)
    put_off = sum(run.silent[it] for it in STEPS.values())
    is_seen = "as many as allocate for that" if run.put_off else "in which call is not seen in this program"
    checks.that(all(run.memory.values()) and put_off and run.quiet_steps,
                f"each call allocates, and some steps do not: {memory}; {put_off}; {run.quiet_steps}")
    scripts, allocations = len(every_stop.stored()), sum(run.memory.values())
    return (f"{scripts} scripts, {allocations} refused allocations: {memory}; threads: {threads}; "
            f"{put_off} put off indexing or applying entries ({is_seen}), "
            f"{run.kept_blocks} kept a block that was to become smaller, "
            f"{run.silent[POSTS[0]]} lost a message; "
            f"{run.quiet_steps} stops and ignored messages allocate nothing")
