"""Helps editors with tune books, by the Language Server Protocol on standard input and output.

`command` starts a `Server`, which answers the requests of one editor. Its `Workspace` has the open documents. Each module of a feature
answers what `features` lists for it, from a `Document`."""

from .command import main

__all__ = ["main"]
