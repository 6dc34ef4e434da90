"""Tells the abilities of Rattle's command rt, which differ from kit to kit, by its help."""
import re
import subprocess


def help_text():
    ran = subprocess.run(["rt", "--help"], stdin=subprocess.DEVNULL, stdout=subprocess.PIPE,
                         stderr=subprocess.STDOUT, text=True, errors="replace")
    return ran.stdout


def takes_names():
    """Returns whether the kit has `rt ci NAME..`, which proves and tries some crates alone."""
    return bool(re.search(r"rt ci\b.*NAME", help_text()))


def keeps():
    """Returns whether `rt ci` keeps what passed, so that it proves all only with `--anew`."""
    return "--anew" in help_text()
