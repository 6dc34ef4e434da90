"""Runs a measuring command, prints its output, and writes that to a file of results.

    benchmarks/note FOLDER COMMAND [ARG ..]

FOLDER is one of benchmarks/, as node. What COMMAND prints becomes benchmarks/FOLDER/RESULTS.md, below
a line with the day, the commit, the processors and how busy they were. A command that fails leaves
the file as it was, and its status is that of the call.
"""
import os
import subprocess
import sys
import time

from tools import repository


def commit():
    """Returns the short name of the commit, with '+' if a file of crates/ differs from it; 'unknown'
    outside of git."""
    ask = ["git", "-C", repository.TOP]
    name = subprocess.run([*ask, "rev-parse", "--short", "HEAD"], capture_output=True, text=True)
    changed = subprocess.run([*ask, "status", "--porcelain", "--", "crates"], capture_output=True)
    return (name.stdout.strip() or "unknown") + ("+" if changed.stdout else "")


def machine():
    """Returns the number of processors and their model."""
    with open("/proc/cpuinfo", encoding="utf-8", errors="replace") as it:
        models = [line.partition(":")[2].strip() for line in it if line.startswith("model name")]
    return f"{os.cpu_count()} processors ({models[0] if models else 'unknown'})"


def day():
    """Returns the date of today."""
    return time.strftime("%Y-%m-%d", time.gmtime())


def heading():
    """Returns the line above results: the day, the commit and the machine, with its load average."""
    return f"{day()}: commit {commit()}, {machine()}, load average {os.getloadavg()[0]:.1f}"


def main():
    folder = repository.path("benchmarks", sys.argv[1]) if len(sys.argv) > 2 else ""
    if not folder or not os.path.isdir(folder):
        print(__doc__, file=sys.stderr)
        return 2
    first = heading()
    ran = subprocess.run(sys.argv[2:], stdout=subprocess.PIPE, text=True)
    print(ran.stdout, end="")
    if ran.returncode == 0:
        with open(os.path.join(folder, "RESULTS.md"), "w", encoding="utf-8") as it:
            it.write(f"{first}\n\n```text\n{ran.stdout}```\n")
    return ran.returncode


if __name__ == "__main__":
    sys.exit(main())
