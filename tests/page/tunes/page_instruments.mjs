// Tries the instruments without a browser. The arguments are the folder of the page's scripts and the words of completion. Each test
// prints a line, `ok` or `FAILED`, with its name. The numbers are those of the General MIDI sound set, counted from 0.

import { readFileSync } from "node:fs";
import { pathToFileURL } from "node:url";

import { run, same } from "../testing.mjs";

const [, , folder, file] = process.argv;
const { instrumentsLike, instrumentsOf, programEdit } = await import(pathToFileURL(`${folder}/tunes/instruments.js`));
const { completions, narrowed } = await import(pathToFileURL(`${folder}/editor/completion.js`));
const WORDS = JSON.parse(readFileSync(file, "utf8")), ALL = instrumentsOf(WORDS);

const like = (words) => instrumentsLike(ALL, words).map(({ program }) => program);
const offered = (before) => narrowed(completions(WORDS, { before, isInHeader: true, number: null, voices: [] }), before).map(({ text, meaning, start }) => [text, meaning, start]);

/** The lines of a book after a tune of some of its lines got a program. */
function after(book, first, last, program, from = null) {
  const lines = book.split("\n"), { start, taken, put } = programEdit(lines, first, last, program, from);
  same(lines.splice(start, taken.length, ...put), taken);
  return lines.join("\n");
}

const tests = {
  "there are 128 instruments, eight in each of 16 families"() {
    same([ALL.length, new Set(ALL.map(({ family }) => family)).size, ALL.every(({ family }, n) => family === ALL[n - (n % 8)].family)], [128, 16, true]);
    const named = (program) => `${ALL[program].name}, ${ALL[program].family}`;
    same([0, 21, 40, 73, 78, 105, 127].map(named), ["Acoustic Grand Piano, Piano", "Accordion, Organ", "Violin, Strings", "Flute, Pipe", "Whistle, Pipe", "Banjo, Ethnic", "Gunshot, Sound effects"]);
  },

  "a search finds names, other words, families and numbers"() {
    same([like("fiddle"), like("Fiddle")], [[40, 110], [40, 110]]);
    same([like("tin whistle"), like("bodhran"), like("double bass"), like("concertina")], [[78], [116], [43], [21, 23]]);
    same([like("4"), like("127"), like("guitar nylon"), like("no such thing")], [[4, 40, 41, 42, 43, 44, 45, 46, 47, 48, 49], [127], [24], []]);
    same([like("strings").slice(0, 3), like("").length], [[40, 41, 42], 128]);
  },

  "completion after the directive offers numbers with names, by a part of the name"() {
    same(offered("%%MIDI program ").length, 128);
    same(offered("%%MIDI program 7").map(([text]) => text), ["7", "70", "71", "72", "73", "74", "75", "76", "77", "78", "79"]);
    same(offered("%%MIDI program fid"), [["40", "Violin", 15], ["110", "Fiddle", 15]]);
    same(offered("%%MIDI program 40"), []);
  },

  "a tune gets its program before its key, or instead of the last one there"() {
    same(after("X:1\nT:a\nK:C\nCDE\n", 0, 5, 40), "X:1\nT:a\n%%MIDI program 40\nK:C\nCDE\n");
    same(after("X:1\n%%MIDI program 7 % old\nT:a\n%%MIDI program 8\nK:C\n", 0, 6, 40), "X:1\n%%MIDI program 7 % old\nT:a\n%%MIDI program 40\nK:C\n");
    same(after("X:1\n%%MIDI program 2 41\nK:C\n", 0, 4, 40), "X:1\n%%MIDI program 2 41\n%%MIDI program 40\nK:C\n");
    same(after("X:1\nK:C\n%%MIDI program 5\nC\n\nX:2\nK:D\nD", 5, 8, 40), "X:1\nK:C\n%%MIDI program 5\nC\n\nX:2\n%%MIDI program 40\nK:D\nD");
    same(after("X:1\nT:a\n\nK:C\n", 0, 5, 40), "X:1\n%%MIDI program 40\nT:a\n\nK:C\n");
  },

  "from a line of the body on it is above that line"() {
    same(after("X:1\nK:C\nV:1\nC\nV:2\nE\n", 0, 7, 71, 5), "X:1\nK:C\nV:1\nC\nV:2\n%%MIDI program 71\nE\n");
    same(after("X:1\nK:C\n%%MIDI program 5\nC\n", 0, 5, 71, 3), "X:1\nK:C\n%%MIDI program 71\nC\n");
    same(after("X:1\nK:C\n%%MIDI program 5\nC\n", 0, 5, 71, 2), "X:1\nK:C\n%%MIDI program 71\nC\n");
    same(after("X:1\nT:a\nK:C\nC\n", 0, 5, 71, 1), "X:1\nT:a\n%%MIDI program 71\nK:C\nC\n");
  },
};

await run(tests);
process.exit(0);
