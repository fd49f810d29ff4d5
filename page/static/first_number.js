// The hint at a text without a tune, of which the compiler has no fault: where the first number belongs. The server finds it by the
// tokens of the lines, with the other hints.

/** @typedef {import("../link/finding_rows.js").FaultRow} FaultRow */

const SENTENCE = "this text has no tune, so there is no file; a tune begins with a line `X:1`"; // as the server has it
const MOST_LINES = 10000; // that are looked through
const LEAST_NOTES = 3; // in what looks like a line of music
const FIELD = /^(?:[A-Za-z+]:|%)/; // or a comment, or a directive
const WORDS = /"[^"]*"|![^!\s]*!|\[[A-Za-z]:[^\][]*\]|\{[^{}]*\}|%.*/g; // inside music
const MUSIC = /^[A-Ga-gxzZHLMOPSTuv\d\s/,'^_=[\]:<>()~.\\&|-]*$/;

/** The hint at the first music of a text without tunes, or at its first words. There is none at an empty text, at one whose lines seem
 * to end in another way, or at one in another code than UTF-8.
 * @type {(lines: string[]) => FaultRow[]} */
export function firstNumberHints(lines) {
  const words = lines.slice(0, MOST_LINES), music = firstMusic(words);
  const line = music < 0 ? words.findIndex((text) => text.trim()) : music;
  if (line < 0 || words.slice(0, 2).some((text) => /\0|\r./.test(text))) return [];
  return [[line, 0, words[line].length, "NoTune", SENTENCE]];
}

/** The first line of music: one that looks so, or any line after a key in the same block. -1 if there is none.
 * @type {(lines: string[]) => number} */
function firstMusic(lines) {
  let hasKey = false;
  return lines.findIndex((text) => {
    hasKey = text.trim() !== "" && (hasKey || text.startsWith("K:"));
    return text.trim() && !FIELD.test(text) && (hasKey || looksLikeMusic(text));
  });
}

/** Whether a line has a bar line and notes, and no other letters but those of common decorations.
 * @type {(text: string) => boolean} */
function looksLikeMusic(text) {
  const plain = text.replace(WORDS, ""), notes = plain.match(/[A-Ga-gxzZ]/g) ?? [];
  return notes.length >= LEAST_NOTES && plain.includes("|") && MUSIC.test(plain);
}
