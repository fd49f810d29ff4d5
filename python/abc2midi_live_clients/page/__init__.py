"""Serves a page in the browser over a tune book."""
