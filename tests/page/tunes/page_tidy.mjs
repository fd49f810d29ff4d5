// Tries what tidies lines, without a browser. The folder of the page's scripts is the argument. Each test prints a line, `ok` or `FAILED`,
// with its name. With a second argument it tidies the texts that its input has, with the rows of their tokens.

import { readFileSync } from "node:fs";
import { pathToFileURL } from "node:url";

import { run, same } from "../testing.mjs";

const [, , folder, answer] = process.argv;
const { tidied } = await import(pathToFileURL(`${folder}/tunes/tidy.js`));
const ALL = { spaces: true, bars: true, lengths: true }, NONE = { spaces: false, bars: false, lengths: false };

if (answer) {
  const { tokensOf } = await import(pathToFileURL(`${folder}/link/tokens_and_plays.js`));
  for (const { lines, rows } of JSON.parse(readFileSync(0, "utf8"))) {
    console.log(JSON.stringify(tidied(lines.map((text, n) => ({ text, tokens: tokensOf(rows[n]) })), ALL)));
  }
  process.exit(0);
}

const KINDS = [[/^[ \t]/, "Blank"], [/^:?\|[\]:]?/, "BarLine"], [/^\[\d/, "Ending"], [/^%.*/, "Comment"], [/^z[\d/]*/, "Rest"], [/^Z\d*/, "BarRest"], [/^-/, "Tie"], [/^[_^=]*[A-Ga-g][',]*[\d/]*/, "Note"]];

/** A line of music, with the tokens of some kinds; an ending is also a number directly after a bar line. */
function line(text) {
  const tokens = [];
  let at = 0;
  while (at < text.length) {
    const rest = text.slice(at), isEnding = tokens.at(-1)?.kind === "BarLine" && /^\d/.test(rest), chord = /^\[[A-G]/.test(rest);
    const length = chord ? /^\[[^\]]*\][\d/]*/.exec(rest)[0].length : 1;
    const [found, kind] = isEnding ? [1, "Ending"] : chord ? [length, "Chord"] : KINDS.flatMap(([form, name]) => (form.test(rest) ? [[form.exec(rest)[0].length, name]] : []))[0] ?? [1, "BadByte"];
    tokens.push({ from: at, to: at + found, kind, depth: 0 });
    if (chord) for (const part of rest.slice(0, length).matchAll(/[A-G][\d/]*/g)) tokens.push({ from: at + part.index, to: at + part.index + part[0].length, kind: "Note", depth: 1 });
    at += found;
  }
  return { text, tokens };
}

const tidy = (choices, ...texts) => tidied(texts.map(line), choices);
const spaces = (text) => tidy({ ...NONE, spaces: true }, text)[0];
const lengths = (text) => tidy({ ...NONE, lengths: true }, text)[0];

const tests = {
  "one space is where there were several, and beside bar lines"() {
    same(["AB  c\td|ef", "A|B|", " A  ", "A  % x", "|A||B"].map(spaces), ["AB c d | ef", "A | B |", " A", "A % x", "| A || B"]);
  },

  "what has to be next to something stays there"() {
    same(["A|1 B:|2c", "A- |A", "| 1 A", "A|?B"].map(spaces), ["A |1 B :|2 c", "A- | A", "| 1 A", "A |?B"]);
  },

  "lengths are as short as they can be"() {
    same(["A1", "A2/2", "A2/4", "A/", "A//", "A3/2", "A6/4", "A/1", "z4/2", "Z1", "^c'2/2"].map(lengths), ["A", "A", "A/2", "A/2", "A/4", "A3/2", "A3/2", "A", "z2", "Z", "^c'"]);
    same(lengths("[C2/2E4/4]2/4"), "[CE]/2");
  },

  "a length that is refused stays, and one that would become another"() {
    same(["A0", "A/0", "A1234567890/2", "A1234567890"].map(lengths), ["A0", "A/0", "A1234567890/2", "A1234567890"]);
    same(tidied([{ text: "A//2", tokens: [{ from: 0, to: 3, kind: "Note", depth: 0 }, { from: 3, to: 4, kind: "BadByte", depth: 0 }] }], ALL), ["A//2"]);
  },

  "bar lines are below each other in lines with as many bars"() {
    same(tidy(ALL, "A2|B c d|e:|", "A B|c|d|"), ["A2  | B c d | e :|", "A B | c     | d  |"]);
    same(tidy(ALL, "A B|c|", "A|B|c|", "|d|e|"), ["A B | c |", "A | B | c |", "| d | e |"]);
    same(tidy(ALL, "|A|", "|B c|"), ["| A   |", "| B c |"]);
    same(tidy(ALL, "A|B c|d|", "A B c|d|e|"), ["A | B c | d |", "A B c | d | e |"]);
  },

  "only the lines of music change, and those that are asked for"() {
    const field = { text: "T:A  B", tokens: [{ from: 0, to: 6, kind: "TitleField", depth: 0 }] };
    same(tidied([field, line("A  B"), line("A  B")], ALL, 0, 1), ["T:A  B", "A B", "A  B"]);
    const empty = { text: "", tokens: [{ from: 0, to: 0, kind: "Blank", depth: 0 }] };
    same(tidied([empty, line("  "), line("  % x")], ALL), ["", "  ", "  % x"]);
  },
};

await run(tests);
process.exit(0);
