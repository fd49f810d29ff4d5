// For test_midi_names.py: makes names of MIDI files, as windows do. The folder of the page's scripts is the argument, and a list of
// numbers with titles comes in. For each a line goes out: its name.

import { readFileSync } from "node:fs";
import { pathToFileURL } from "node:url";

const { midiName } = await import(pathToFileURL(`${process.argv[2]}/tunes/midi_names.js`));

for (const [number, title] of JSON.parse(readFileSync(0, "utf8"))) console.log(JSON.stringify(midiName(number, title)));
