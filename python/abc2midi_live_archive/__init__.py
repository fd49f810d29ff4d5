"""Compiles whole archives of tune books, on all processors of a machine or on a cluster. docs/archive.md describes it.

`command` is the command line and `run` a run. A run takes books from `sources`, makes a unit of work of each (`units`), has the
units done by `pool` or `cluster` (`compiling` does one), and keeps what they find in `catalogue`."""
