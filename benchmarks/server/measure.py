"""Measures craqd beside redis and memcached in one run, and writes a table, a chart and the data.

    benchmarks/server/measure CRAQD [--out FOLDER] [--quick] [OPTION ..]
    benchmarks/server/measure --draw FOLDER       draws RESULTS.svg anew from RESULTS.csv

CRAQD is the program as ./build made it. `rustc -O` builds the load client load.rs, and
`redis-server` and `memcached` are Debian's packages. With --out it writes RESULTS.md, RESULTS.svg
and RESULTS.csv into that folder; the table is also printed.

In each round, and for each number of keys, all servers are started, and each key is written once.
Then each mix of requests is measured on one server after another, while the others are stopped
(SIGSTOP). The table has the median of the rounds, and in brackets the least and the greatest. The
ratios to redis are those of each round, so a slow minute slows both.

Closed loop: each connection sends its next request once it has the reply. Open loop (--rates):
requests are due at fixed moments, spread evenly over the connections, and a latency counts from the
moment that the request was due.

Processor time is the server's, of all its threads. Memory is resident memory once each key is written.
"""
import argparse
import csv
import os
import shutil
import subprocess
import sys
import tempfile
import time
from types import SimpleNamespace
from typing import NamedTuple

from benchmarks.note import commit, machine
from benchmarks.server import report, servers

HERE = os.path.dirname(os.path.realpath(__file__))
# The mixes of load.rs, and what the table calls them. Reads are GET of redis, puts SET.
MIXES = {
    "puts": "puts at the head",
    "reads-one": "strong reads at one node",
    "reads-all": "strong reads at all three nodes",
    "half": "half puts, half strong reads at all three nodes",
    "half-one": "half puts, half strong reads at the head",
    "tenth": "a tenth puts, the rest strong reads at one node",
    "many": "eight puts together",
}


class Case(NamedTuple):
    """One row of the table, without its server: a mix, the number of keys and connections, and the
    rate, 0 if closed."""

    mix: str
    keys: int
    connections: int
    rate: int


class Measure(NamedTuple):
    """The result of one run: replies, replies a second, latencies and processor time a reply in
    microseconds, and bytes."""

    replies: float
    rate: float
    median: float
    late: float
    later: float
    latest: float
    processor: float
    memory: float


def load_words(load, server, case, options):
    """Returns the command of the load client for a case."""
    words = [load, server.protocol, server.address, case.mix, str(case.connections), str(options.seconds)]
    words += ["--keys", str(case.keys), "--size", str(options.size), "--chains", str(options.chains),
              "--filled", "yes"]
    if case.rate:
        return [*words, "--rate", str(case.rate)]
    return [*words, "--threads", str(options.load_threads)]


def measured(load, server, case, options):
    """Runs the load client on a server whose keys are written."""
    before = server.seconds()
    ran = subprocess.run(load_words(load, server, case, options), capture_output=True, text=True)
    if ran.returncode:
        sys.exit(f"measure: {server.protocol}, {MIXES[case.mix]}: {ran.stderr}")
    found = [float(it) for it in ran.stdout.split()]
    return Measure(*found, (server.seconds() - before) * 1e6 / found[0], server.bytes())


def filled(load, server, keys, options):
    """Writes each key once, and returns the bytes of memory that a key then takes."""
    before = server.bytes()
    words = load_words(load, server, Case("fill", keys, 50, 0), options)
    subprocess.run(words, check=True)
    return server.bytes(), (server.bytes() - before) / keys


def cases_of(options, keys):
    """Returns the cases of a number of keys: the mixes in a closed loop, then those in an open loop
    at each rate."""
    closed = [Case(mix, keys, many, 0) for many in options.connections for mix in options.mixes]
    if keys != options.keys[0]:
        return closed
    return closed + [Case(mix, keys, options.connections[0], rate) for mix in options.open
                     for rate in options.rates]


class Run:
    """All that is measured: by case and server a list with a measure of each round; by keys and
    server the memory."""

    def __init__(self, options, load):
        self.options, self.load = options, load
        self.starts = servers.starters(options)
        self.found, self.memory = {}, {}

    def tell(self, *words):
        if sys.stderr.isatty():
            sys.stderr.write(f"\r\033[K{', '.join(map(str, words))}\r")

    def started(self, keys, folder):
        """Starts each server, writes the keys, and leaves it stopped."""
        running = {}
        for name, start in self.starts.items():
            self.tell(f"{keys:,} keys are written to {name}")
            os.makedirs(os.path.join(folder, name))
            running[name] = server = start(os.path.join(folder, name))
            self.memory.setdefault((keys, name), []).append(filled(self.load, server, keys, self.options))
            server.rest()
        return running

    def round(self, number, keys):
        """Measures each case of a number of keys once, on each server in turn."""
        with tempfile.TemporaryDirectory() as folder:
            running = {}
            try:
                running.update(self.started(keys, folder))
                for case in cases_of(self.options, keys):
                    for name, server in running.items():
                        self.tell(f"round {number} of {self.options.rounds}", f"{keys:,} keys",
                                  MIXES[case.mix], name)
                        server.wake()
                        measure = measured(self.load, server, case, self.options)
                        server.rest()
                        self.found.setdefault((case, name), []).append(measure)
            finally:
                for server in running.values():
                    server.kill()


def times_of_processors():
    """Returns all time of the processors so far, the idle part, and the part that other guests had."""
    with open("/proc/stat", encoding="ascii") as it:
        times = [int(it) for it in it.readline().split()[1:9]]
    return sum(times), times[3] + times[4], times[7]


def heading(options, before):
    """Returns the line above the table: the day, what was asked for, how busy the machine was, the
    machine, and the commit of the sources."""
    all_time, idle, steal = (late - early for early, late in zip(before, times_of_processors()))
    busy = f"idle {idle / all_time:.0%}, steal {steal / all_time:.0%}, {machine()}, commit {commit()}"
    chains = f"{options.chains} chain{'s' if options.chains > 1 else ''} of three nodes"
    values = f"values of {options.size} bytes, {chains}"
    client = f", a load client of {options.load_threads} threads" if options.load_threads else ""
    day = time.strftime("%Y-%m-%d", time.gmtime())
    return f"{day}: {options.seconds:g} s, {options.rounds} rounds, {values}{client}, {busy}"


def numbers_of(text):
    return [int(it) for it in text.split(",")]


def names_of(known):
    """Returns a reader of names with commas between them, each of which has to be known."""
    def read(text):
        found = [it for it in text.split(",") if it]
        if set(found) - set(known):
            raise argparse.ArgumentTypeError(f"the names are {','.join(known)}")
        return found
    return read


def asked_for():
    reads = argparse.ArgumentParser(prog="benchmarks/server/measure", description=__doc__,
                                    formatter_class=argparse.RawDescriptionHelpFormatter)
    reads.add_argument("craqd", metavar="CRAQD")
    reads.add_argument("--out", metavar="FOLDER",
                       help="the folder for RESULTS.md, RESULTS.svg and RESULTS.csv")
    reads.add_argument("--keys", type=numbers_of, default=[10_000, 50, 1_000_000],
                       help="numbers of keys: 10000,50,1000000")
    reads.add_argument("--mixes", type=names_of(MIXES), default=["puts", "reads-one", "reads-all", "half"],
                       help="mixes of the closed loop, of " + ",".join(MIXES))
    reads.add_argument("--connections", type=numbers_of, default=[50], help="numbers of connections: 50")
    reads.add_argument("--rates", type=numbers_of, default=[5_000, 20_000, 30_000, 40_000],
                       help="requests a second of the open loop, for the first number of keys; 0 for none")
    reads.add_argument("--open", type=names_of(MIXES), default=["puts"], help="mixes of the open loop: puts")
    reads.add_argument("--threads", type=numbers_of, default=[2, 0],
                       help="event loops of craqd, a server for each: 2,0; 0 is a thread for each connection")
    reads.add_argument("--beside", type=names_of(servers.OTHERS), default=["redis", "memcached"],
                       help="other servers, of redis,memcached,etcd")
    reads.add_argument("--redis", default="redis-server", help="the program of redis")
    reads.add_argument("--rounds", type=int, default=5)
    reads.add_argument("--seconds", type=float, default=2, help="seconds of each run")
    reads.add_argument("--size", type=int, default=16, help="bytes of a value")
    reads.add_argument("--chains", type=int, default=1, help="chains that the keys are spread over")
    reads.add_argument("--load-threads", type=int, default=0,
                       help="threads of the load client; 0: one a connection")
    reads.add_argument("--journal", action="store_true", help="craqd keeps journals")
    reads.add_argument("--quick", action="store_true",
                       help="one round of 0.3 s, up to 10,000 keys, to try the command")
    options = reads.parse_args()
    options.rates = [it for it in options.rates if it]
    if options.quick:
        options.rounds, options.seconds, options.keys = 1, 0.3, [it for it in options.keys if it <= 10_000]
    return options


def build(folder):
    """Builds the load client and returns its path."""
    if not shutil.which("rustc"):
        sys.exit("measure: needs rustc on the path")
    load = os.path.join(folder, "load")
    subprocess.run(["rustc", "-O", "--edition", "2024", "-o", load, os.path.join(HERE, "load.rs")],
                   check=True)
    return load


def write(folder, name, text):
    with open(os.path.join(folder, name), "w", encoding="utf-8") as it:
        it.write(text)


def write_data(folder, run):
    """Writes a line for each measure of each round."""
    with open(os.path.join(folder, "RESULTS.csv"), "w", encoding="utf-8", newline="") as it:
        lines = csv.writer(it, lineterminator="\n")
        lines.writerow([*Case._fields[:3], "due_a_second", "server", "round", "replies", "replies_a_second",
                        "median_us",
                        "99th_us", "99.9th_us", "longest_us", "processor_us", "memory_bytes"])
        for (case, name), rounds in run.found.items():
            for number, measure in enumerate(rounds, 1):
                lines.writerow([*case, name, number, *(f"{it:.10g}" for it in measure)])


def data_of(folder):
    """Returns what RESULTS.csv has of each case and server: a measure of each round."""
    found = {}
    with open(os.path.join(folder, "RESULTS.csv"), encoding="utf-8", newline="") as it:
        for mix, keys, connections, rate, name, _, *measure in list(csv.reader(it))[1:]:
            case = Case(mix, int(keys), int(connections), int(rate))
            found.setdefault((case, name), []).append(Measure(*map(float, measure)))
    return SimpleNamespace(found=found)


def main():
    if sys.argv[1:2] == ["--draw"] and len(sys.argv) == 3:
        write(sys.argv[2], "RESULTS.svg", report.chart(data_of(sys.argv[2]), MIXES))
        return
    options = asked_for()
    before = times_of_processors()
    with tempfile.TemporaryDirectory() as folder:
        run = Run(options, build(folder))
        for number in range(1, options.rounds + 1):
            for keys in options.keys:
                run.round(number, keys)
    run.tell()
    text = report.page(heading(options, before), run, MIXES)
    print(text, end="")
    if options.out:
        os.makedirs(options.out, exist_ok=True)
        write(options.out, "RESULTS.md", text)
        write(options.out, "RESULTS.svg", report.chart(run, MIXES))
        write_data(options.out, run)


if __name__ == "__main__":
    main()
