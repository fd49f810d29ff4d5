// The faults and hints of a tune below the text, and what a mark says when someone points at it.

import { straightQuotes } from "./music_rewrites.js";
import { isOddSpace, visible } from "./unseen_signs.js";

/** @typedef {import("../link/finding_rows.js").FaultRow} FaultRow
 * @typedef {import("./fault_fixes.js").Mend} Mend
 * Remarks that are one entry: the first of them, their sign, and how many there are.
 * @typedef {{ fault: FaultRow, sign: string, count: number }} Group
 * An entry of the list, with its fault or hint.
 * @typedef {HTMLLIElement & { fault: FaultRow }} Item */

const MOST = 50; // in the list
const MOST_OF_A_SIGN = 24; // characters
const ODD = /^[^ -~]/; // a sign that is no letter of ASCII
const BLANKS = /^[ \t]+|[ \t\r]+$/g;

/** The kind of a sign beyond ASCII, since each kind has a mend of its own.
 * @type {(sign: string) => string | null} */
function kindOf(sign) {
  return straightQuotes(sign) !== sign ? "quote" : isOddSpace(sign) ? "space" : null;
}

/** Remarks that say the same of the same sign, as one: the first of them, the sign, and how many there are. Letters that ABC does
 * not have are one sign, so that a word in another script is one remark.
 * @type {(faults: FaultRow[], lines: string[]) => Group[]} */
export function grouped(faults, lines) {
  /** @type {Map<string, { fault: FaultRow, signs: Set<string>, count: number }>} */
  const groups = new Map();
  for (const fault of faults) {
    const [line, start, end, name, hint] = fault;
    const sign = (lines[line] ?? "").slice(start, end).replace(BLANKS, "");
    const key = JSON.stringify([name, hint, name === "BadByte" && ODD.test(sign) ? kindOf(sign) : short(sign)]);
    const group = groups.get(key) ?? { fault, signs: new Set(), count: 0 };
    group.signs.add(sign);
    group.count += 1;
    groups.set(key, group);
  }
  return [...groups.values()].map(({ fault, signs, count }) => ({ fault, sign: visible(short([...signs].join(" "))), count }));
}

/** The begin of a sign, if it is long.
 * @type {(sign: string) => string} */
function short(sign) {
  return sign.length > MOST_OF_A_SIGN ? `${sign.slice(0, MOST_OF_A_SIGN)}…` : sign;
}

export class Remarks {
  /** `go` goes to a line and a column.
   * @param {HTMLElement} list
   * @param {import("../base/tooltip.js").Tip} tip
   * @param {(line: number, column: number) => void} go */
  constructor(list, tip, go) {
    this.list = list;
    this.tip = tip;
    this.go = go;
    /** @type {(fault: FaultRow) => Mend | null} */
    this.mendOf = () => null; // what mends a fault, if one change does
    /** @type {(mend: Mend) => void} */
    this.mended = () => {}; // a mend is wanted
    /** @type {Record<string, string[]>} */
    this.sentences = {}; // by the name of a fault: the problem, and the remedy
    this.shown = "[]"; // what the list shows
  }

  /** Shows those of a tune, those of new lines first, then those of the caret's line.
   * @type {(faults: FaultRow[], lines: string[], here: number, isNew?: (line: number) => boolean) => void} */
  show(faults, lines, here, isNew = () => false) {
    const rank = (/** @type {FaultRow} */ [line, , , , hint]) => (isNew(line) ? 0 : 4) + (line === here ? 0 : 2) + (hint ? 1 : 0);
    const nearest = [...faults].sort((a, b) => rank(a) - rank(b));
    const groups = grouped(nearest, lines).slice(0, MOST), shown = JSON.stringify(groups.map((group) => this.partsOf(group)));
    if (shown !== this.shown) this.list.replaceChildren(...groups.map((group) => this.item(group)));
    else groups.forEach(({ fault }, n) => (/** @type {Item} */ (this.list.children[n]).fault = fault));
    this.shown = shown;
  }

  /** What an entry of the list shows.
   * @type {(group: Group) => unknown[]} */
  partsOf({ fault, sign, count }) {
    const [line, , , name, hint] = fault;
    return [line, hint || (this.sentences[name] ?? name), Boolean(hint), sign, count, this.mendOf(fault)?.words];
  }

  /** The place, the sign, the problem, the remedy, and a button that mends it.
   * @type {(group: Group) => Item} */
  item({ fault, sign, count }) {
    const [line, , , , hint] = fault, mend = this.mendOf(fault);
    const item = Object.assign(document.createElement("li"), { fault });
    const button = document.createElement("button");
    const place = Object.assign(document.createElement("b"), { textContent: `Line ${line + 1}${hint ? ", hint" : ""}` });
    button.type = "button";
    item.classList.toggle("hint", Boolean(hint));
    button.append(place, ...(sign ? [code(sign), " "] : []), ...this.words(fault));
    if (count > 1) button.append(Object.assign(document.createElement("small"), { textContent: ` ${count} times` }));
    button.addEventListener("click", () => this.go(item.fault[0], item.fault[1]));
    item.append(button);
    if (mend) item.append(this.mendButton(item, mend));
    return item;
  }

  /** @type {(item: Item, mend: Mend) => HTMLButtonElement} */
  mendButton(item, { words }) {
    const button = Object.assign(document.createElement("button"), { type: "button", className: "mend", textContent: words });
    button.addEventListener("click", () => {
      const mend = this.mendOf(item.fault);
      if (mend) this.mended(mend);
    });
    return button;
  }

  /** The problem of a fault and its remedy, or a hint, with what is in backquotes as code.
   * @type {(fault: FaultRow) => (string | HTMLElement)[]} */
  words([, , , name, hint]) {
    const [problem, remedy] = hint ? [hint] : (this.sentences[name] ?? [name]);
    const parts = [["problem", problem], ["remedy", remedy]].filter(([, words]) => words);
    return parts.flatMap(([className, words], n) => {
      const part = Object.assign(document.createElement("span"), { className });
      part.append(...words.split("`").map((piece, at) => (at % 2 ? code(piece) : piece)));
      return n ? [" ", part] : [part];
    });
  }

  /** Shows what the faults say at which someone points, beside the mouse.
   * @param {FaultRow[]} faults
   * @param {MouseEvent} [event] */
  point(faults, event) {
    const different = [...new Map(faults.map((fault) => [`${fault[3]} ${fault[4]}`, fault])).values()];
    this.tip.show(different.flatMap((fault) => [...this.words(fault), " "]), event);
  }
}

/** @type {(words: string) => HTMLElement} */
function code(words) {
  return Object.assign(document.createElement("code"), { textContent: words });
}
