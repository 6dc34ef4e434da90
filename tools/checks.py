"""Counts checks, for the scripts that try built programs."""
import sys
import time
import traceback


class Checks:
    """Counts the checks that passed and failed. Prints a failed one on standard error, after the title;
    with `progress`, on a terminal, also which part runs."""

    def __init__(self, title, progress=False):
        self.title, self.passed, self.failed = title, 0, 0
        self.progress = progress and sys.stderr.isatty()

    def that(self, holds, what):
        if holds:
            self.passed += 1
        else:
            self.failed += 1
            print(f"{self.title}: FAILED: {what}", file=sys.stderr)

    def same(self, what, found, wanted):
        self.that(found == wanted, f"{what}: found {shortened(found)}, wanted {shortened(wanted)}")

    def same_items(self, what, found, wanted):
        """Compares two lists: what one of them has alone, and their order."""
        missing = [it for it in wanted if it not in found]
        strange = [it for it in found if it not in wanted]
        self.that(not missing, f"{what} lacks {', '.join(map(str, missing))}")
        self.that(not strange, f"{what} has {', '.join(map(str, strange))}, which is not there")
        self.that(missing or strange or list(found) == list(wanted), f"{what} is in another order")

    def part(self, what, run, *given):
        """Runs a part of the checks. What stops it is a check that failed, and the next part is run
        as ever."""
        if self.progress:
            sys.stderr.write(f"\r{self.title}: {what}{'':30}\r")
        try:
            return run(self, *given)
        except Exception as failure:
            at = traceback.extract_tb(failure.__traceback__)[-1]
            self.that(False, f"{what} stopped: {failure!r} at {at.filename.rpartition('/')[2]}:{at.lineno}")
            return None

    def told(self, what, run, *given):
        """Runs a part of the checks, and prints a line with its counts and its seconds."""
        passed, failed, began = self.passed, self.failed, time.time()
        self.part(what, run, *given)
        print(f"{self.title}: {what}: {self.passed - passed} passed, {self.failed - failed} failed, "
              f"{time.time() - began:.0f} s", flush=True)


def shortened(it):
    text = repr(it)
    return text if len(text) <= 300 else text[:300] + ".."
