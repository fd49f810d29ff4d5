"""The clients of abc2midi_live: a watcher, a language server and a page in the browser. Python 3.9 or later, no other library."""
