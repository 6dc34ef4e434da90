"""Robustness tests of the built programs."""
