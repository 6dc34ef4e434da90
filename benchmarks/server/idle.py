"""Measures the processor time of a craqd that no client asks.

    benchmarks/server/idle CRAQD [SECONDS]

CRAQD is the program, and SECONDS how long it is measured, 20 by default, after 5 seconds in which
it starts. The store has 64 chains of 8 nodes, served by two event loops, and then by a thread for
each connection. For each it prints the share of one core, and the switches of its threads a second:
those in which a thread waited, and those in which another one took its place. The line of the
machine tells what else ran: figures are comparable at a low load alone.
"""
import os
import re
import subprocess
import sys
import tempfile
import time

CHAINS, NODES, STARTING = 64, 8, 5
PLAN = "".join(f'[[chain]]\nname = "chain-{it}"\nnodes = {list(range(1, NODES + 1))}\n\n'
               for it in range(CHAINS))
SWITCHES = re.compile(r"^(?:non)?voluntary_ctxt_switches:\s+(\d+)$", re.M)


def text_of(path):
    with open(path, encoding="ascii", errors="replace") as it:
        return it.read()


def used(pid):
    """The seconds of processor time of a process so far, and its threads' switches of both kinds."""
    times = text_of(f"/proc/{pid}/stat").rpartition(")")[2].split()[11:13]
    seconds = sum(map(int, times)) / os.sysconf("SC_CLK_TCK")
    threads = [SWITCHES.findall(text_of(f"/proc/{pid}/task/{it}/status"))
               for it in os.listdir(f"/proc/{pid}/task")]
    return [seconds, *(sum(int(it[kind]) for it in threads) for kind in (0, 1))]


def measured(craqd, plan, threads, seconds):
    """Starts a server, and returns its processor time and its switches in each second."""
    server = subprocess.Popen([craqd, "--until-input-ends", "--threads", threads, plan, "127.0.0.1:0"],
                              stdin=subprocess.PIPE, stdout=subprocess.PIPE, stderr=subprocess.DEVNULL)
    try:
        server.stdout.readline()
        time.sleep(STARTING)
        before, began = used(server.pid), time.time()
        time.sleep(seconds)
        took = time.time() - began
        return [(after - it) / took for it, after in zip(before, used(server.pid))]
    finally:
        server.stdin.close()
        server.wait()


def main():
    if not 2 <= len(sys.argv) <= 3:
        print(__doc__, file=sys.stderr)
        return 2
    seconds = float(sys.argv[2]) if len(sys.argv) == 3 else 20.0
    with tempfile.NamedTemporaryFile("w", suffix=".toml") as plan:
        plan.write(PLAN)
        plan.flush()
        for threads in "2", "0":
            share, waits, others = measured(sys.argv[1], plan.name, threads, seconds)
            print(f"{CHAINS} chains of {NODES} nodes, --threads {threads}: {share:.1%} of a core, "
                  f"{waits:.0f} and {others:.0f} switches a second")
    load = " ".join(f"{it:.1f}" for it in os.getloadavg())
    print(f"machine: {len(os.sched_getaffinity(0))} processors, load average {load}")
    return 0


if __name__ == "__main__":
    sys.exit(main())
