"""Packs the programs into an archive, and tries it."""
