"""Keeps the MIDI files of a tune book current while any editor saves it."""
