"""Plays of scripts and schedules on craq_lab."""
