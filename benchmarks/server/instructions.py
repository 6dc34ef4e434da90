"""Counts the instructions that craqd takes for a strong read, for a put, and for a page of its metrics.

    benchmarks/server/instructions CRAQD [OTHER] [--requests N] [--rounds N]

It needs valgrind, and takes some ten minutes. It counts with and without `--metrics`, and of OTHER
too: of a program that counts no requests, say. Counts are of user code, not of the kernel.

Without `--threads` each connection has a thread of its own, which alone is counted here: for a read
it is all that the server does, for a put the part in which all counting lies. A count is the
difference of two runs, one with FEW requests and one with more, divided by the number of these. A
thread that waits for a lock takes more instructions, so each run is made in each round, and the
least count is taken. A page is counted likewise, by the threads that make pages.
"""
import argparse
import glob
import os
import re
import subprocess
import sys
import tempfile
import urllib.request

from tools import plain_client
from tools.end_to_end.running import text_file

FEW, PAGES = 200, 50
METRICS = ["--metrics", "127.0.0.1:0"]
PLAN = '[[chain]]\nname = "a"\nnodes = [1, 2, 3]\n'


def reads(port, _page, count):
    with plain_client.Client(f"127.0.0.1:{port}", client=1) as client:
        client.put("key", b"v" * 16)
        for _ in range(count):
            client.read("key", node=1)


def puts(port, _page, count):
    with plain_client.Client(f"127.0.0.1:{port}", client=1) as client:
        for at in range(count):
            client.put(f"key{at % 100}", b"v" * 16)


def pages(_port, page, count):
    for _ in range(count):
        with urllib.request.urlopen(f"http://127.0.0.1:{page}/metrics", timeout=60) as it:
            it.read()


def page_of(server):
    """Returns the port of the metrics, from the first line on standard error."""
    return re.search(r"metrics on port (\d+)", server.stderr.readline())[1]


def threads_of(folder):
    """Returns the instructions of each thread, in the order in which the threads were started."""
    found = {}
    for name in glob.glob(os.path.join(folder, "counted-*")):
        with open(name, encoding="utf-8") as it:
            found[name.rpartition("-")[2]] = int(re.search(r"^totals: (\d+)", it.read(), re.M)[1])
    return [found[it] for it in sorted(found)]


def counted(craqd, options, ask, count):
    """Runs a server that is asked so often, and returns the instructions of each of its threads."""
    with tempfile.TemporaryDirectory() as folder, text_file(PLAN) as plan:
        words = ["valgrind", "--quiet", "--tool=callgrind", "--separate-threads=yes",
                 f"--callgrind-out-file={folder}/counted", craqd, "--until-input-ends", *options,
                 plan.name, "127.0.0.1:0"]
        server = subprocess.Popen(words, stdin=subprocess.PIPE, stdout=subprocess.PIPE,
                                  stderr=subprocess.PIPE, text=True)
        port = server.stdout.readline().split()[-1]
        ask(port, page_of(server) if options else None, count)
        server.communicate()
        return threads_of(folder)


class Way:
    """A way to run a server, and to ask it: the least instructions of `few` requests, and of `more` too."""

    def __init__(self, name, words, ask, counts):
        self.name, self.words, self.ask = name, words, ask
        self.few, self.more = counts
        self.least = [float("inf")] * 2
        self.idle = len(counted(*words, pages, 0))

    def measure(self):
        for at, count in enumerate((self.few, self.few + self.more)):
            threads = counted(*self.words, self.ask, count)
            self.least[at] = min(self.least[at], sum(threads[self.idle:]))

    def told(self):
        return f"{self.name}: {(self.least[1] - self.least[0]) / self.more:,.0f} instructions"


def main():
    takes = argparse.ArgumentParser(prog="benchmarks/server/instructions", description=__doc__,
                                    formatter_class=argparse.RawDescriptionHelpFormatter)
    takes.add_argument("craqd", metavar="CRAQD")
    takes.add_argument("other", metavar="OTHER", nargs="?")
    takes.add_argument("--requests", type=int, default=2_000, metavar="N")
    takes.add_argument("--rounds", type=int, default=3, metavar="N")
    given = takes.parse_args()
    servers = {"without --metrics": (given.craqd, []), "with --metrics": (given.craqd, METRICS)}
    if given.other:
        servers["the other program"] = given.other, []
    ways = [Way(f"{what}, {name}", words, ask, (FEW, given.requests))
            for what, ask in (("a strong read", reads), ("a put, its connection's thread", puts))
            for name, words in servers.items()]
    ways.append(Way("a page of one chain of three nodes", (given.craqd, METRICS), pages, (1, PAGES)))
    for _ in range(given.rounds):
        for way in ways:
            way.measure()
    print(*(way.told() for way in ways), sep="\n")
    return 0


if __name__ == "__main__":
    sys.exit(main())
