// Tries what one click mends, without a browser. The folder of the page's scripts is the argument. Each test prints a line, `ok` or
// `FAILED`, with its name. With the argument `--mend` a list of { lines, fault } comes in, and for each the mended lines go out.

import { readFileSync } from "node:fs";
import { pathToFileURL } from "node:url";

import { run, same } from "../testing.mjs";

const { mendOf } = await import(pathToFileURL(`${process.argv[2]}/editor/fault_fixes.js`));

/** The lines after a mend, and the words of its button; null without a mend. */
function mended(lines, fault, ...numbers) {
  const mend = mendOf(fault, lines, () => numbers);
  if (!mend) return null;
  const { words, start, taken, put } = mend;
  same(lines.slice(start, start + taken.length), taken);
  return [words, ...lines.slice(0, start), ...put, ...lines.slice(start + taken.length)];
}

/** What becomes of one line whose fault is at the first place of a sign, or a null. */
const line = (text, sign, name) => mended([text], [0, text.indexOf(sign), text.indexOf(sign) + sign.length, name]);

const tests = {
  "what is open is closed after its word"() {
    same([line('"Em DEF', '"', "Unclosed"), line("!trill C", "!", "Unclosed"), line("{ab c", "{", "Unclosed"), line("[CEG A", "[", "Unclosed")],
      [['Write "Em"', '"Em" DEF'], ["Write !trill!", "!trill! C"], ["Write {ab}", "{ab} c"], ["Write [CEG]", "[CEG] A"]]);
    same([line('C "|D', '"', "Unclosed"), line("C %", "%", "Unclosed")], [null, null]);
  },

  "a sharp goes before its note"() {
    same([line("C F#2", "#", "BadByte"), line("C #F", "#", "BadByte"), line("C #", "#", "LostSharp")], [["Write ^F", "C ^F2"], ["Write ^F", "C ^F"], null]);
    same(line("^F#", "#", "BadByte"), ["Delete #", "^F"]);
    same(line("F#2 C", "2", "BadByte"), null);
  },

  "sharps, flats and German notes are written as ABC has them, in the whole tune"() {
    const tune = ["X:1", "K:F#m", 'C f#2 "F#"^F# [F#A]!D#!{g#} % F#', "T:F#", "#G|", "w:F#", "", "F#|"];
    same(mended(tune, [2, 3, 4, "LostSharp", "a hint"]), ["Write each sharp before its note", "X:1", "K:F#m", 'C ^f2 "F#"^F# [^FA]!D#!{^g} % F#', "T:F#", "^G|", "w:F#", "", "F#|"]);
    same(mended(['Bb2 Eb|ab =Bb [Bb]{Ab}"Bb"[K:Bb]', "P:Bb", "Gb|", "X:2", "Gb|"], [0, 0, 2, "LostFlat", "a hint"]), ["Write each flat before its note", '_B2 _E|ab =Bb [Bb]{Ab}"Bb"[K:Bb]', "P:Bb", "_G|", "X:2", "Gb|"]);
    same(mended(['H2 "H"h/|^H', "G|"], [0, 0, 1, "GermanNote", "a hint"]), ["Write B for H", 'B2 "H"b/|^B', "G|"]);
    same(mended(["C|"], [0, 0, 1, "LostFlat", "a hint"]), null);
  },

  "markup is deleted, with the lines that have nothing else"() {
    same(mended(["<pre>", "A<b>c|<br>", '"<br>"C&nbsp;D</b> % <br>', "w:<i>la</i>", "C|", " </pre>", "D|", "", "</pre>"], [0, 0, 5, "Markup", "a hint"]),
      ["Delete the markup", "A<b>c|", '"<br>"CD % <br>', "w:<i>la</i>", "C|", "D|", "", "</pre>"]);
  },

  "a sign of markup, or a length after an H, is not deleted alone"() {
    const all = ["Delete the markup", "C|"];
    same([line("C|</pre>", "/", "BadByte"), line("C|</pre>", "<", "BadBroken"), line("C|</pre>", ">", "BadBroken"), line("C|<br />", "/", "BadByte")], [all, all, all, all]);
    same([line("A<b>c", "<", "BadBroken"), line("A<b|>c", ">", "BadBroken"), line("C>|/<", "/", "BadByte")], [null, null, ["Delete /", "C>|<"]]);
    same([line("H2 C", "2", "BadByte"), line("h2 C", "2", "BadByte"), line("C|2", "2", "BadByte")], [["Write B for H", "B2 C"], ["Write B for H", "b2 C"], ["Delete 2", "C|"]]);
  },

  "quotes of a word processor become straight ones, all of a line at once"() {
    same(line("\u201cBb\u201dB,2 \u201eC\u201f|c\u2019", "\u201c", "BadByte"), ["Write straight quotes", '"Bb"B,2 "C"|c\'']);
    same(line('"a \u201cb\u201d"C\u201dD % \u201c', "\u201dD", "BadByte"), ["Write straight quotes", '"a \u201cb\u201d"C"D % \u201c']);
    same(line('"Em\u201dDEF \u201cG\u201d G', '"', "Unclosed"), ["Write straight quotes", '"Em"DEF "G" G']);
    const at = "\u201c\u00e9C";
    same(mended([at], [0, 1, 2, "BadByte"]), ["Delete \u00e9", "\u201cC"]);
  },

  "a space that no keyboard has becomes a blank, and other unseen signs are named"() {
    same([line("C\u00a0D\u2003|", "\u00a0", "BadByte"), line("C\u200bD", "\u200b", "BadByte"), line("C\udc01D", "\udc01", "BadByte")],
      [["Write a blank", "C D |"], ["Delete U+200B (zero-width space)", "CD"], ["Delete U+0001 (control)", "CD"]]);
  },

  "the key of the bagpipe, and the number of a first tune"() {
    same([line("K: HP % x", "K", "BadKey"), line("C[K:Hp]D", "K", "BagpipeKey"), line("K:HPX", "K", "BadKey"), line("K:X", "K", "BadKey")], [["Write K:D", "K: D % x"], ["Write K:D", "C[K:D]D"], null, null]);
    const hint = "this text has no tune, so there is no file; a tune begins with a line `X:1`";
    same(mended(["Hello", "", "T:a", "M:4/4", "CDE|"], [4, 0, 4, "NoTune", hint]), ["Write X:1", "Hello", "", "X:1", "T:a", "M:4/4", "CDE|"]);
    same(mended(["a\0b"], [0, 0, 3, "NoTune", "this text has no tune, and seems to be in UTF-16; save it in UTF-8"]), null);
  },

  "a sign that means nothing is deleted, but for a second melody"() {
    same([line("C é|", "é", "BadByte"), line("+trill+C", "+", "BadByte"), line("C + D", "+", "BadByte"), line("C & D", "&", "BadByte")],
      [["Delete é", "C |"], ["Write !trill!", "!trill!C"], ["Delete +", "C  D"], null]);
  },

  "a number that is free"() {
    const rows = ["X:1", "K:C", "C", "", "X: 1 % again", "K:C"];
    same(mended(rows, [4, 0, 2, "SameNumber", "a hint"], 1, 2, 4), ["Write X:3", ...rows.slice(0, 4), "X: 3 % again", "K:C"]);
    same(mended(["X:1% again"], [0, 0, 2, "SameNumber", "a hint"], 1), ["Write X:2", "X:2% again"]);
    same([mended(["X:"], [0, 0, 2, "BadReference"], 0), mended(["X:none"], [0, 0, 2, "BadReference"], 1, 0)], [["Write X:1", "X:1"], ["Write X:2", "X:2"]]);
    same(mended(["X:999999999"], [0, 0, 2, "SameNumber", "a hint"], 999999999), null);
  },

  "a tie, a key and a program"() {
    same([line("C2  -|C", "-", "LooseTie"), line("[CE]2 -[CE]", "-", "LooseTie"), line("C|-C", "-", "LooseTie")], [["Write C2-", "C2-|C"], ["Write ]2-", "[CE]2-[CE]"], null]);
    same(mended(["X:1", "T:a", "% b", "CDE"], [0, 0, 2, "MissingKey"]), ["Write K:C", "X:1", "T:a", "% b", "K:C", "CDE"]);
    same(mended(["X:1"], [0, 0, 2, "MissingKey"]), ["Write K:C", "X:1", "K:C"]);
    same([line("%%MIDI program 128", "%", "BadProgram"), line("%%MIDI program 200", "%", "BadProgram")], [["Write %%MIDI program 127", "%%MIDI program 127"], null]);
    const hint = "this program has no effect; write `%%MIDI program 41` from column 1 on, and no channel before the number";
    same(mended([" %%MIDI program 2 41"], [0, 0, 5, "LostProgram", hint]), ["Write %%MIDI program 41", "%%MIDI program 41"]);
    same(mended(["C [I:MIDI program 2 41] D"], [0, 2, 9, "LostProgram", hint]), null);
  },

  "music that is in no tune"() {
    const joins = "this music is in no tune: the blank line before it ends the tune; write a `%` on that line", heads = "write a line `X:` with a new number";
    same(mended(["X:1", "K:C", "C|", "", " ", "DEF|"], [5, 0, 3, "FreeMusic", joins], 1), ["Write % on the blank line", "X:1", "K:C", "C|", "%", "%", "DEF|"]);
    same(mended(["", "T:a", "K:D", "DEF|"], [3, 0, 3, "FreeMusic", heads], 7, 2), ["Write X:8", "", "X:8", "T:a", "K:D", "DEF|"]);
  },

  "other faults have no button"() {
    same([line("C0", "0", "BadLength"), mendOf([9, 0, 1, "BadByte"], ["C"], () => [])], [null, null]);
  },
};

if (process.argv[3] === "--mend") {
  for (const { lines, fault, numbers } of JSON.parse(readFileSync(0, "utf8"))) console.log(JSON.stringify(mended(lines, fault, ...numbers)));
} else {
  await run(tests);
}
process.exit(0);
