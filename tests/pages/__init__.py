"""Trials of the pages of the repository."""
