"""Starts the servers that are measured, each fresh and on a free port of 127.0.0.1."""
import os
import re
import signal
import socket
import subprocess
import sys
import time

from tools.sockets import free_port

# The environment that ./serve gives craqd, unless it is set.
AS_SERVED = {"GLIBC_TUNABLES": "glibc.malloc.tcache_count=2000:glibc.malloc.mmap_threshold=33554432:"
                               "glibc.malloc.trim_threshold=268435456:glibc.malloc.arena_max=1:"
                               "glibc.malloc.hugetlb=1"}
# Seconds for a server to listen.
PATIENCE = 10
TICKS = os.sysconf("SC_CLK_TCK")


class Server:
    """A server that runs: its process, its port, and the protocol that the load client speaks to it."""

    def __init__(self, process, port, protocol):
        self.process, self.port, self.protocol = process, port, protocol

    @property
    def address(self):
        return f"127.0.0.1:{self.port}"

    def rest(self):
        """Stops the process, so that another server has the machine alone."""
        self.process.send_signal(signal.SIGSTOP)

    def wake(self):
        """Lets the process go on, and waits until its threads have had a moment to settle."""
        self.process.send_signal(signal.SIGCONT)
        time.sleep(0.05)

    def seconds(self):
        """Returns the processor time so far, of all threads, in seconds."""
        with open(f"/proc/{self.process.pid}/stat", encoding="ascii") as it:
            return sum(map(int, it.read().rpartition(")")[2].split()[11:13])) / TICKS

    def bytes(self):
        """Returns the resident memory in bytes."""
        with open(f"/proc/{self.process.pid}/status", encoding="ascii") as it:
            return 1024 * int(re.search(r"VmRSS:\s+(\d+)", it.read())[1])

    def kill(self):
        self.process.kill()
        self.process.wait()


def once_listening(words, port, protocol):
    """Starts a server and returns it once it listens at this port. Ends the program if it does not."""
    process = subprocess.Popen(words, stdout=subprocess.DEVNULL, stderr=subprocess.DEVNULL)
    until = time.monotonic() + PATIENCE
    while time.monotonic() < until and process.poll() is None:
        try:
            socket.create_connection(("127.0.0.1", port)).close()
            return Server(process, port, protocol)
        except OSError:
            time.sleep(0.05)
    process.kill()
    return sys.exit(f"measure: {words[0]} does not listen")


def craqd(options, folder, threads):
    """Starts craqd with chains of three nodes; with 0 threads each connection has a thread of its own."""
    plan = os.path.join(folder, "plan.toml")
    with open(plan, "w", encoding="utf-8") as it:
        it.write("".join(f'[[chain]]\nname = "chain{at}"\nnodes = [1, 2, 3]\n'
                         for at in range(options.chains)))
    # A server with journals ends with its input, which stays open.
    words = [os.path.realpath(options.craqd),
             *(["--journal", "--until-input-ends"] if options.journal else [])]
    process = subprocess.Popen([*words, "--threads", str(threads), plan, "127.0.0.1:0"],
                               stdin=subprocess.PIPE,
                               stdout=subprocess.PIPE, stderr=subprocess.DEVNULL, text=True,
                               env=AS_SERVED | os.environ)
    found = re.fullmatch(r"listening (\d+)\n", process.stdout.readline())
    return Server(process, int(found[1]), "craq") if found else sys.exit("measure: craqd does not listen")


def redis(options, folder):
    """Starts redis, which writes nothing to disk."""
    port = free_port()
    words = [options.redis, "--port", str(port), "--save", "", "--appendonly", "no", "--dir", folder]
    return once_listening(words, port, "redis")


def memcached(_options, _folder):
    """Starts memcached with four threads, its default, and room for all keys."""
    port = free_port()
    words = ["memcached", "-l", "127.0.0.1", "-p", str(port), "-U", "0", "-u", "nobody", "-t", "4", "-m",
             "8192"]
    return once_listening(words, port, "memcached")


def etcd(_options, folder):
    """Starts one member of etcd, which puts on disk before it replies."""
    port, peers = free_port(), f"http://127.0.0.1:{free_port()}"
    here = f"http://127.0.0.1:{port}"
    words = ["etcd", "--data-dir", os.path.join(folder, "data"), "--log-level", "error"]
    words += ["--listen-client-urls", here, "--advertise-client-urls", here]
    words += ["--listen-peer-urls", peers, "--initial-advertise-peer-urls", peers, "--initial-cluster",
              f"default={peers}"]
    found = once_listening(words, port, "etcd")
    time.sleep(2)
    return found


OTHERS = {"redis": redis, "memcached": memcached, "etcd": etcd}


def starters(options):
    """Returns a call that starts each server which the command line names, by the server's name."""
    def with_threads(threads):
        return lambda folder: craqd(options, folder, threads)

    def other(start):
        return lambda folder: start(options, folder)

    found = {f"craqd --threads {it}" if it else "craqd": with_threads(it) for it in options.threads}
    return found | {it: other(OTHERS[it]) for it in options.beside}
