// Music that was written for readers or for another notation, as ABC: quotes of a word processor, `F#`, `Bb`, `H`, markup of a web page.

/** What is passed over in a line: texts in quotes, fields in brackets, decorations and a comment. */
const PASSED = String.raw`"[^"]*"|\[[A-Za-z]:[^\]]*\]|![^!|]*!|%.*`;
const NO_MUSIC = /^(?:[A-Za-z+]:|%)/;
/** @type {Record<string, string>} */
const STRAIGHT = { "\u201c": '"', "\u201d": '"', "\u201e": '"', "\u201f": '"', "\u2033": '"', "\u2018": "'", "\u2019": "'", "\u201a": "'", "\u201b": "'", "\u2032": "'" };
const MARKUP = String.raw`<\/?(?:br|p|pre|hr|div|span|font|html|head|body|title|meta|link|script|style|table|tbody|tr|td|th|h[1-6]|i|u|em|strong|tt|code|center|blockquote|ul|ol|li|img)\b[^<>]*>|<\/[ab]>|<a\s[^<>]*>|&(?:amp|nbsp|lt|gt|quot|#\d+);`; // no tag of a note: `A<b>c` is broken rhythm

/** What is passed over or fits a pattern.
 * @type {(pattern: string, passed?: string) => RegExp} */
const patternOf = (pattern, passed = PASSED) => new RegExp(`(${passed})|${pattern}`, "gi");

const QUOTES = patternOf(`[${Object.keys(STRAIGHT).join("")}]`);
const SPACES = patternOf("[\xa0\u1680\u2000-\u200a\u202f\u205f\u3000]");
const SHARPS = patternOf("([\\^_=]*)([a-g])#|#([a-g])");
const FLATS = patternOf("([\\^_=]*)([a-g])(b)", `${PASSED}|\\[[^\\]]*\\]|\\{[^}]*\\}`);
const GERMAN = patternOf("h");
const TAGS = patternOf(MARKUP, '"[^"]*"|%.*');

/** A line in which what fits a pattern, and is not passed over, is written in another way.
 * @type {(text: string, pattern: RegExp, write: (...found: string[]) => string) => string} */
function rewrite(text, pattern, write) {
  return text.replace(pattern, (whole, over, ...found) => (over === undefined ? write(whole, ...found) : whole));
}

/** With straight quotes for those of a word processor, but for texts in straight quotes.
 * @type {(text: string) => string} */
export const straightQuotes = (text) => rewrite(text, QUOTES, (quote) => STRAIGHT[quote]);

/** With blanks for other spaces.
 * @type {(text: string) => string} */
export const plainBlanks = (text) => rewrite(text, SPACES, () => " ");

/** With each sharp before its note.
 * @type {(text: string) => string} */
export function sharpsBefore(text) {
  return rewrite(text, SHARPS, (whole, sign, note, next) => (note === undefined ? `^${next}` : sign ? whole : `^${note}`));
}

/** With each flat before its note: a `b` after a capital letter. Chords and grace notes stay.
 * @type {(text: string) => string} */
export function flatsBefore(text) {
  return rewrite(text, FLATS, (whole, sign, note, flat) => (sign || note > "G" || flat !== "b" ? whole : `_${note}`));
}

/** With B for the German note H.
 * @type {(text: string) => string} */
export const germanNotes = (text) => rewrite(text, GERMAN, (note) => (note === "H" ? "B" : "b"));

/** Without markup; null if the line has nothing else.
 * @type {(text: string) => string | null} */
export function withoutMarkup(text) {
  const plain = rewrite(text, TAGS, () => "");
  return plain === text || plain.trim() ? plain : null;
}

/** The lines of a tune from a line on, with their music written in another way; without those that become null.
 * @type {(lines: string[], line: number, write: (text: string) => string | null) => { taken: string[], put: string[] }} */
export function rewrittenTune(lines, line, write) {
  let stop = line;
  while (stop < lines.length && lines[stop].trim() && !(stop > line && lines[stop].startsWith("X:"))) stop += 1;
  const taken = lines.slice(line, stop);
  /** @type {(string | null)[]} */
  const put = taken.map((text) => (NO_MUSIC.test(text) ? text : write(text)));
  while (taken.length && put[put.length - 1] === taken[taken.length - 1]) {
    taken.pop();
    put.pop();
  }
  return { taken, put: put.flatMap((text) => (text === null ? [] : [text])) };
}
