// For test_page_music.py: lays plays beside their files, as the page does. The folder of the page's scripts is the argument, and a list
// of { lines, play, file } comes in. For each tune a line goes out: how many voices it has, how many of these are known from beginning to
// end, how many notes of the file have a place, and how many it has.

import { readFileSync } from "node:fs";
import { pathToFileURL } from "node:url";

const { Places } = await import(pathToFileURL(`${process.argv[2]}/music/note_places.js`));
const { TuneWords } = await import(pathToFileURL(`${process.argv[2]}/music/tune_text.js`));
const { scoreOf } = await import(pathToFileURL(`${process.argv[2]}/music/midi_file.js`));

for (const { lines, play, file } of JSON.parse(readFileSync(0, "utf8"))) {
  const score = scoreOf(Uint8Array.from(Buffer.from(file, "hex")).buffer);
  const places = new Places(play, new TuneWords(lines, 0, lines.length), score);
  const whole = places.voices.filter(({ until }) => until === Infinity).length;
  const notes = score.notes.filter((note) => places.tonesOf(note).length).length;
  console.log(JSON.stringify({ voices: score.tracks.length - 1, whole, notes, all: score.notes.length }));
}
