"""Measures two ways to run craqd in turn, and prints the ratio of their rates.

    benchmarks/server/pair CRAQD metrics      with --metrics, read once a second, beside without
    benchmarks/server/pair CRAQD tunables     with the tunables of ./serve, beside without
    benchmarks/server/pair CRAQD OTHER        beside another program

    --rounds N      15                --mixes M,M    puts,reads-all
    --seconds S     2, of each run    --keys N       10000
    --size N        16                --threads N    2

Both servers hold the same keys. In each round one is measured after the other, first the one and
then, in the next round, the other; the one that is not measured is stopped (SIGSTOP). The ratio is
that of the two rates of a round: the first way's by the second's. Printed are the median of the
rounds, the quartiles, and the same of the processor time a reply.
"""
import argparse
import os
import re
import statistics
import subprocess
import sys
import tempfile
import threading
import time
import urllib.request

from benchmarks.server import measure, servers
from tools.sockets import free_port


class Reader(threading.Thread):
    """Reads the metrics of a server once a second, while it is awake."""

    def __init__(self, port):
        super().__init__(daemon=True)
        self.port, self.awake, self.pages = port, threading.Event(), 0

    def run(self):
        while True:
            if self.awake.wait(0.1):
                try:
                    with urllib.request.urlopen(f"http://127.0.0.1:{self.port}/metrics", timeout=60) as it:
                        self.pages += bool(it.read())
                except OSError:  # the server was ended
                    return
                time.sleep(1)


class Way:
    """A way to run craqd: its program, its options, its environment, and a reader of its metrics."""

    def __init__(self, name, program, environment=servers.AS_SERVED, metrics=None):
        self.name, self.program, self.environment, self.metrics = name, program, environment, metrics
        self.reader = Reader(metrics) if metrics else None

    def start(self, options, folder):
        plan = os.path.join(folder, "plan.toml")
        with open(plan, "w", encoding="utf-8") as it:
            it.write('[[chain]]\nname = "a"\nnodes = [1, 2, 3]\n')
        words = [os.path.realpath(self.program), "--threads", str(options.threads)]
        words += ["--metrics", f"127.0.0.1:{self.metrics}"] if self.metrics else []
        given = {name: value for name, value in os.environ.items() if name != "GLIBC_TUNABLES"}
        process = subprocess.Popen([*words, plan, "127.0.0.1:0"], stdin=subprocess.PIPE,
                                   stdout=subprocess.PIPE, stderr=subprocess.DEVNULL, text=True,
                                   env=given | self.environment)
        found = re.fullmatch(r"listening (\d+)\n", process.stdout.readline())
        if self.reader:
            self.reader.start()
        if not found:
            sys.exit("pair: craqd does not listen")
        return servers.Server(process, int(found[1]), "craq")


def ways_of(craqd, what):
    if what == "metrics":
        return Way("with --metrics", craqd, metrics=free_port()), Way("without", craqd)
    if what == "tunables":
        return Way("with tunables", craqd), Way("without", craqd, {})
    return Way(craqd, craqd), Way(what, what)


def asked_for():
    reads = argparse.ArgumentParser(prog="benchmarks/server/pair", description=__doc__,
                                    formatter_class=argparse.RawDescriptionHelpFormatter)
    reads.add_argument("craqd", metavar="CRAQD")
    reads.add_argument("what", metavar="metrics|tunables|OTHER")
    reads.add_argument("--rounds", type=int, default=15)
    reads.add_argument("--seconds", type=float, default=2)
    reads.add_argument("--mixes", type=measure.names_of(measure.MIXES), default=["puts", "reads-all"])
    reads.add_argument("--keys", type=int, default=10_000)
    reads.add_argument("--size", type=int, default=16)
    reads.add_argument("--threads", type=int, default=2)
    options = reads.parse_args()
    options.chains, options.load_threads = 1, 0
    return options


def quartiles(ratios):
    """Returns the median and the quartiles of ratios, as text."""
    low, middle, high = statistics.quantiles(ratios, n=4) if len(ratios) > 1 else ratios * 3
    return f"{middle:.4f} ({low:.4f} to {high:.4f})"


def run(options, ways, load, folder):
    running = []
    for at, way in enumerate(ways):
        os.makedirs(os.path.join(folder, str(at)))
        server = way.start(options, os.path.join(folder, str(at)))
        running.append(server)
        measure.filled(load, server, options.keys, options)
        server.rest()
    found = {mix: ([], []) for mix in options.mixes}
    for number in range(options.rounds):
        for mix in options.mixes:
            case = measure.Case(mix, options.keys, 50, 0)
            taken = [None, None]
            for at in (0, 1) if number % 2 == 0 else (1, 0):
                running[at].wake()
                if ways[at].reader:
                    ways[at].reader.awake.set()
                taken[at] = measure.measured(load, running[at], case, options)
                if ways[at].reader:
                    ways[at].reader.awake.clear()
                running[at].rest()
            found[mix][0].append(taken[0].rate / taken[1].rate)
            found[mix][1].append(taken[0].processor / taken[1].processor)
    for server in running:
        server.kill()
    return found


def main():
    options = asked_for()
    ways = ways_of(options.craqd, options.what)
    before = measure.times_of_processors()
    with tempfile.TemporaryDirectory() as folder:
        found = run(options, ways, measure.build(folder), folder)
    print(measure.heading(options, before))
    for mix, (rates, times) in found.items():
        print(f"{measure.MIXES[mix]}: {ways[0].name} / {ways[1].name}: rate {quartiles(rates)}, "
              f"processor time a reply {quartiles(times)}")
    if ways[0].reader:
        print(f"pages read: {ways[0].reader.pages}")


if __name__ == "__main__":
    main()
