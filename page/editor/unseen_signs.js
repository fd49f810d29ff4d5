// Signs that nobody sees in a text, as controls and no-break spaces, by their numbers and names.

const UNSEEN = /[\0-\x08\x0b-\x1f\x7f-\xa0\xad\u034f\u061c\u1680\u180e\u2000-\u200f\u2028-\u202f\u205f-\u206f\u3000\ufe00-\ufe0f\ufeff\udc00-\udc1f]/g;
const SPACE = /^[\xa0\u1680\u2000-\u200a\u202f\u205f\u3000]$/;
/** @type {Record<string, string>} */
const NAMES = {
  "\xa0": "no-break space",
  "\xad": "soft hyphen",
  "\u200b": "zero-width space",
  "\u200c": "zero-width non-joiner",
  "\u200d": "zero-width joiner",
  "\u202f": "narrow no-break space",
  "\ufeff": "byte order mark",
};

/** Whether a sign is a space other than the one of the keyboard.
 * @type {(sign: string) => boolean} */
export const isOddSpace = (sign) => SPACE.test(sign);

/** A text in which unseen signs are their numbers and names.
 * @type {(text: string) => string} */
export const visible = (text) => text.replace(UNSEEN, nameOf);

/** @type {(sign: string) => string} */
function nameOf(sign) {
  const code = sign.charCodeAt(0), number = code >= 0xdc00 && code < 0xdc20 ? code - 0xdc00 : code; // a half of a pair shows a control
  const kind = SPACE.test(sign) ? "space" : number < 32 || (number >= 0x7f && number < 0xa0) ? "control" : "no sign";
  return `U+${number.toString(16).toUpperCase().padStart(4, "0")} (${NAMES[sign] ?? kind})`;
}
