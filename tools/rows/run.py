"""Plays scripts and schedules on craq_lab, with nodes of either core.

    tools/rows/run CRAQ_LAB     the program, as the gate or ./build made it

The worked scripts of worked/ have to print what is expected of them, byte for byte, and the picture
of each has to have an arrow for each message and a row for each move; explanations are checked,
right ones and wrong ones. Of scripts and schedules that seeds determine nothing is known
beforehand: both cores have to print the same, and every verdict on an explanation to be true. After
some of the random scripts come the rounds of docs/proof/RECOVERY.md, and each member has to serve
then. The last line is 'N passed, M failed', and the status 1 where a check failed.
"""
import os
import sys
import time

from tools.checks import Checks
from tools.rows import pictures, recovery, schedules, scripts, worked

SCHEDULES, SCRIPTS, RECOVERIES = 400, 1_000, 400


def main():
    if len(sys.argv) != 2:
        print(__doc__, file=sys.stderr)
        return 2
    program = os.path.realpath(sys.argv[1])
    if not os.access(program, os.X_OK):
        print(f"rows: there is no program {program}", file=sys.stderr)
        return 1
    checks, began = Checks("rows", progress=True), time.time()
    checks.told("worked scripts", worked.scripts, program)
    checks.told("texts that are no scripts", worked.no_scripts, program)
    checks.told("pictures", pictures.pictures, program)
    checks.told("pictures in the pages", pictures.in_pages, program)
    checks.told("explanations that are checked", pictures.claims, program)
    checks.told("schedules that are drawn", schedules.drawn, program, SCHEDULES)
    checks.told("nodes that stop", schedules.stopped, program)
    checks.told("random scripts", scripts.random_scripts, program, SCRIPTS)
    checks.told("scripts that rounds follow", recovery.worked_recoveries, program)
    checks.told("random scripts that rounds follow", recovery.random_recoveries, program, RECOVERIES)
    print(f"rows: {len(worked.rows())} worked scripts, {SCHEDULES} schedules, {SCRIPTS} random scripts and "
          f"{RECOVERIES} with rounds, in {time.time() - began:.0f} s")
    print(f"{checks.passed} passed, {checks.failed} failed")
    return 1 if checks.failed else 0


if __name__ == "__main__":
    sys.exit(main())
