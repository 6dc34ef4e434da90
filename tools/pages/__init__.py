"""Checks of the pages: against the sources, and by running their commands."""
