"""craq_lab without its proofs: the worked scripts with either core, texts that are no scripts,
pictures and explanations, and some of the schedules and random scripts that tools/rows/run
plays."""
from tools.quick import tries
from tools.rows import pictures, playing, recovery, schedules, scripts, worked

SCHEDULES, SCRIPTS, RECOVERIES = 40, 40, 10


def plays(checks, program):
    """Plays all these and checks the output. The program is not optimized and runs beside others, so it
    is slow."""
    playing.PATIENCE = tries.SECONDS
    for what, part, *given in (
            ("worked scripts", worked.scripts), ("texts that are no scripts",
                                                 worked.no_scripts), ("pictures", pictures.pictures),
            ("pictures in the pages", pictures.in_pages), ("explanations that are checked", pictures.claims),
            ("schedules that are drawn", schedules.drawn, SCHEDULES), ("nodes that stop", schedules.stopped),
            ("random scripts", scripts.random_scripts, SCRIPTS), ("scripts that rounds follow",
                                                                  recovery.worked_recoveries),
            ("random scripts that rounds follow", recovery.random_recoveries, RECOVERIES)):
        checks.part(what, part, program, *given)
    return (f"{len(worked.rows())} worked scripts, {SCHEDULES} schedules, {SCRIPTS} random scripts and "
            f"{RECOVERIES} with rounds")
