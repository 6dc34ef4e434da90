"""Checks that need no proof."""
