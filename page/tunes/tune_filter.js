// A filter of the tunes by number or title: accents and capitals do not count.

/** @typedef {import("../link/finding_rows.js").TuneRow} TuneRow */

/** @type {Record<string, string>} */
const ALIKE = { ø: "o", ł: "l", đ: "d", ð: "d", þ: "th", æ: "ae", œ: "oe", ß: "ss", "’": "'" };

/** Words in small letters without accents.
 * @type {(words: string) => string} */
export function folded(words) {
  return words.normalize("NFD").replace(/\p{M}/gu, "").toLowerCase().replace(/[øłđðþæœß’]/g, (letter) => ALIKE[letter]);
}

export class Filter {
  constructor() {
    /** @type {string[]} */
    this.words = []; // each of which a tune has to have
    /** @type {Map<string, string>} */
    this.titles = new Map(); // folded, so that each is folded once
  }

  /** The tunes that pass: each word is in the title, or begins the number.
   * @type {(all: TuneRow[]) => TuneRow[]} */
  rows(all) {
    return this.words.length ? all.filter((row) => this.words.every((word) => this.has(row, word))) : all;
  }

  /** @type {(row: TuneRow, word: string) => boolean} */
  has([, number, title], word) {
    const known = this.titles.get(title) ?? folded(title);
    this.titles.set(title, known);
    return String(number).startsWith(word) || known.includes(word);
  }
}
