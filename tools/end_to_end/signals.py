"""SIGTERM, SIGINT and SIGHUP while a client works. ./serve over the program as it is tried here ends in
order, and what was answered is audited; craqd itself ends at once, and prints nothing."""
import itertools
import os
import re
import shutil
import signal
import subprocess
import tempfile
import threading

from tools.end_to_end import running
from tools.end_to_end.clients import example

TOP = os.path.join(os.path.dirname(os.path.realpath(__file__)), "..", "..")
# Number of replies that a client has before the signal comes.
BEFORE = 50


def top_with(craqd, room):
    """Makes a folder with ./serve in which this craqd is the one that ./build made of the present
    sources."""
    os.makedirs(f"{room}/tools")
    os.makedirs(f"{room}/crates/craqd/out")
    for name in "serve", "tools/sources", "crates.txt":
        shutil.copy2(os.path.join(TOP, name), os.path.join(room, name))
    os.symlink(craqd, f"{room}/crates/craqd/out/craqd")
    with open(f"{room}/crates/craqd/out/craqd.of", "w", encoding="utf-8") as it:
        subprocess.run([f"{room}/tools/sources", room], check=True, stdout=it)


class Working(threading.Thread):
    """A client that puts until its connection ends: how often it asked, and how often it was answered,
    and rightly."""

    def __init__(self, address):
        super().__init__(daemon=True)
        self.client, self.asked, self.answered, self.wrong, self.many = (
            example.Client(address, 2, tries=1),
            0,
            0,
            [],
            threading.Event(),
        )

    def run(self):
        try:
            while True:
                self.asked += 1
                told = self.client.put("k", b"%d" % self.asked, node=1)
                self.answered += 1
                self.wrong += [] if told == example.Written(self.answered) else [told]
                if self.answered == BEFORE:
                    self.many.set()
        except OSError:
            self.client.close()


def begins(words, **more):
    """Begins a server with journals, and a client that has some answers."""
    # A shell does not trap what is ignored as it begins.
    process = subprocess.Popen(
        words,
        stdout=subprocess.PIPE,
        stderr=subprocess.PIPE,
        text=True,
        start_new_session=True,
        preexec_fn=lambda: signal.signal(signal.SIGINT, signal.SIG_DFL),
        **more,
    )
    first = process.stdout.readline()
    working = Working(f"127.0.0.1:{first.removeprefix('listening ').strip()}")
    working.start()
    return process, working


def ends(process):
    """Kills a server that has not ended, with all processes that it started."""
    if process.poll() is None:
        os.killpg(process.pid, signal.SIGKILL)
        process.wait()


def in_order(checks, top, plan, ending, send):
    """./serve ends the server in order at this signal, also where it is sent to all that ./serve started."""
    what = f"./serve at {ending.name} by {send.__name__}"
    process, working = begins(
        [f"{top}/serve", "--journal", *running.OPTIONS, plan, "127.0.0.1:0"], stdin=subprocess.DEVNULL
    )
    try:
        checks.that(working.many.wait(running.PATIENCE), f"a client of ./serve has {BEFORE} answers")
        send(process.pid, ending)
        out, err = process.communicate(timeout=running.PATIENCE)
        working.join(running.PATIENCE)
        checks.same(
            f"{what}: its status, and wrong answers", (process.returncode, working.wrong[:3]), (0, [])
        )
        audits = out.splitlines()[-2:]
        merged = [
            it
            for it in range(working.answered, working.asked + 1)
            if audits == [f"audit merged {it}", "audit merged 0"]
        ]
        checks.that(
            merged, f"{what}: {working.answered} answers to {working.asked} asks, audited as {audits}: {err}"
        )
    finally:
        ends(process)


def at_once(checks, craqd, plan, ending, options):
    """craqd handles no signal: it is ended by this one, and prints no audit."""
    what = f"craqd {' '.join(options)} at {ending.name}"
    process, working = begins(
        [craqd, "--journal", *options, *running.OPTIONS, plan, "127.0.0.1:0"], stdin=subprocess.PIPE
    )
    try:
        checks.that(working.many.wait(running.PATIENCE), f"a client of craqd has {BEFORE} answers")
        process.send_signal(ending)
        # Its standard input stays open until it has ended.
        status = process.wait(running.PATIENCE)
        out, err = process.communicate()
        working.join(running.PATIENCE)
        checks.same(
            f"{what}: its status, what it prints, and wrong answers",
            (status, out, working.wrong[:3]),
            (-ending, "", []),
        )
        checks.that(re.fullmatch("craqd .*\n", err), f"{what}: on standard error {err!r}")
    finally:
        ends(process)


def tried(checks, craqd):
    """Tries the three signals, and returns what was tried, in words."""
    all_three = signal.SIGTERM, signal.SIGINT, signal.SIGHUP
    with tempfile.TemporaryDirectory(prefix="end-to-end-") as room, running.text_file(running.PLAN) as plan:
        top_with(craqd, room)
        for ending, send in itertools.product(all_three, (os.kill, os.killpg)):
            in_order(checks, room, plan.name, ending, send)
        for ending, options in itertools.product(all_three, (["--until-input-ends"], ["--connections", "9"])):
            at_once(checks, craqd, plan.name, ending, options)
