"""Trials of the server and its command as processes."""
