"""Runs the command, also from a clone, where nothing is installed: python3 clients/python/jilsdau."""
import os
import sys

if not __package__:
    sys.path[0] = os.path.dirname(os.path.dirname(os.path.realpath(__file__)))

from jilsdau.command import run  # noqa: E402

if __name__ == "__main__":
    run()
