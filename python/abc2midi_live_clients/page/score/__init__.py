"""The scores of tunes, drawn by `abcm2ps` within limits."""
