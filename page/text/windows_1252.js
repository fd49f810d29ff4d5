// Windows-1252: Latin-1 with more letters, whose bytes are controls in Latin-1. It leaves five bytes out, which stay controls.

const FIRST = 0x80; // byte that Latin-1 has as a control
const LETTERS = "\u20ac\u0081\u201a\u0192\u201e\u2026\u2020\u2021\u02c6\u2030\u0160\u2039\u0152\u008d\u017d\u008f\u0090\u2018\u2019\u201c\u201d\u2022\u2013\u2014\u02dc\u2122\u0161\u203a\u0153\u009d\u017e\u0178";
const BYTES = new Map([...LETTERS].map((letter, n) => [letter, FIRST + n]));
const LOST = /[\x80-\x9f]/; // what no byte is read as, but for the five

/** The text of bytes.
 * @type {(bytes: Uint8Array) => string} */
export function windowsText(bytes) {
  let text = "";
  for (const byte of bytes) text += LETTERS[byte - FIRST] ?? String.fromCharCode(byte);
  return text;
}

/** The bytes that are read as a text, null if there are none.
 * @type {(text: string) => Uint8Array | null} */
export function windowsBytes(text) {
  const bytes = new Uint8Array(text.length);
  for (let at = 0; at < text.length; at += 1) {
    const byte = BYTES.get(text[at]) ?? (LOST.test(text[at]) ? 256 : text.charCodeAt(at));
    if (byte > 255) return null;
    bytes[at] = byte;
  }
  return bytes;
}
