"""What a tune has: in its text, in its MIDI file, and what of the text the file does not have."""
