"""Stores on threads in trials that are larger than those of the gate.

craq_thread_tests is given how long messages are lost or sent twice (turns of 10 milliseconds), how
often a store is closed while clients ask, and how many calls are answered while members change, in
each of its two forms. It prints whether each trial holds, and then what three connections over
the loopback are answered in each manner of serving, which is no larger here. On standard error it
says how many calls each time of a trial answered and refused, and the most ticks that one waited.
"""
import os
import re
import subprocess

LOST, CLOSES, CALLS = 1_000, 1_000, 100_000
SIZES = (LOST, CLOSES, CALLS)
LIMIT = 1_800
# With this the first line after the trials begins, and one for each manner of serving.
LOOPBACK, MANNERS = "three connections over the loopback", 2


def tried(checks, program):
    """Runs all trials, and returns what was tried, in words."""
    try:
        ran = subprocess.run([program, *map(str, SIZES)], stdin=subprocess.DEVNULL, capture_output=True,
                             text=True, timeout=LIMIT)
    except subprocess.TimeoutExpired:
        checks.that(False, f"{os.path.basename(program)} ends within {LIMIT} s")
        return "did not end"
    trials, *served = ran.stdout.split(LOOPBACK)
    lines = [it for it in trials.splitlines() if ":" in it]
    checks.same("how craq_thread_tests ends", ran.returncode, 0)
    checks.same("how many manners of serving craq_thread_tests comes to after its trials",
                len(served) if lines else 0, MANNERS)
    for it in served:
        checks.that("\naudit: merged, 2 calls\n" in it,
                    f"the calls over the loopback are audited{it}")
    for line in lines:
        checks.that(line.endswith(": holds"), line)
    told = [tuple(map(int, it))
            for it in re.findall(r"^(\d+) answered, (\d+) refused, (\d+) ticks at most$", ran.stderr, re.M)]
    answered, refused, ticks = (sum(it[0] for it in told), sum(it[1] for it in told),
                                max((it[2] for it in told), default=0))
    return (f"{len(lines)} trials, {len(told)} stores, {answered} calls answered, {refused} refused and "
            f"asked again, at most {ticks} ticks while one waited")
