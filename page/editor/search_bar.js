// Find and replace over the whole book: the line above the text, and the marks of the matches in the lines that are seen.

import { commandOf } from "../base/shortcut_names.js";
import { Expressions } from "./regex_search.js";
import { Matches, matchesNothing, replacedIn, replacement, sought } from "./search_matches.js";
import { Layer, rowOf } from "./text_layer.js";

/** @typedef {import("./search_matches.js").What} What
 * @typedef {import("./search_matches.js").Match} Match
 * @typedef {import("../text/selection.js").Place} Place
 * @typedef {import("../text/line_edits.js").Replacement} Replacement */

const AT_ONCE = 12; // milliseconds of counting after a key
const SLICE = 10; // and before the page does something else
const MOST_MARKS = 500; // in a line
const NOTHING = "Nothing found";

/** What came of replacing all matches.
 * @type {(count: number, isOther: boolean, undoKey: string) => string} */
export function replacedWords(count, isOther, undoKey) {
  if (!count) return `${NOTHING}, so nothing is replaced.`;
  if (!isOther) return "Nothing is replaced: the new words are those that were found.";
  return `${count} replaced. ${undoKey} takes ${count === 1 ? "it" : "them"} back.`;
}

export class Search {
  /** `say` shows a sentence; `undoKey` is the name of the keys that take something back.
   * @param {import("./text_sheet.js").Sheet} sheet
   * @param {HTMLElement} root
   * @param {(words: string) => void} say
   * @param {string} undoKey */
  constructor(sheet, root, say, undoKey) {
    this.sheet = sheet;
    this.root = root;
    this.say = say;
    this.undoKey = undoKey;
    this.words = this.field("find-words");
    this.put = this.field("replace-words");
    this.told = this.part("found");
    this.replacing = this.part("replacing");
    /** @type {Matches | null} */
    this.matches = null; // of what is looked for
    this.expressions = new Expressions();
    this.expressions.heard = (from, found) => this.learn(from, found);
    this.expressions.failed = (why) => this.fail(why);
    /** @type {{ place: Place, isForward: boolean } | null} */
    this.wanted = null; // the place from which a match is looked for that is not known yet, and the direction
    this.isDue = false; // all matches are replaced when they are known
    this.wrong = ""; // with the words
    this.news = ""; // what was replaced
    /** @type {Match | null} */
    this.here = null; // the match that is selected
    this.from = { line: 0, column: 0 }; // where to look while words are typed
    /** @type {ReturnType<typeof setTimeout> | null} */
    this.timer = null;
    this.layer = new Layer(sheet, "finds");
    sheet.layers.push(this);
    this.listen();
  }

  /** A part of the line above the text.
   * @type {(name: string) => HTMLElement} */
  part(name) {
    return /** @type {HTMLElement} */ (this.root.querySelector(`#${name}`));
  }

  /** One that is filled in or checked.
   * @type {(name: string) => HTMLInputElement} */
  field(name) {
    return /** @type {HTMLInputElement} */ (this.part(name));
  }

  listen() {
    const { root } = this;
    root.addEventListener("submit", (event) => event.preventDefault());
    root.addEventListener("keydown", (event) => this.key(event));
    root.addEventListener("input", (event) => event.target !== this.put && this.look());
    this.words.addEventListener("focus", () => (this.from = this.sheet.selection().start));
    this.part("find-before").addEventListener("click", () => this.step(false));
    this.part("find-after").addEventListener("click", () => this.step(true));
    this.part("find-close").addEventListener("click", () => this.close());
    this.part("replace-one").addEventListener("click", () => this.replaceOne());
    this.part("replace-all").addEventListener("click", () => this.replaceAll());
    this.replacing.addEventListener("click", () => this.showReplace(this.replacing.ariaExpanded !== "true"));
  }

  get isOpen() {
    return !this.root.hidden;
  }

  /** Whether a key of the page is one of the search, which then follows it.
   * @type {(event: KeyboardEvent) => boolean} */
  takes(event) {
    const { key, metaKey, shiftKey, altKey } = event, name = commandOf(event);
    if (key === "F3" || (name === "g" && !altKey)) this.stepOrOpen(!shiftKey);
    else if (name === "f" && (metaKey || !altKey) && !shiftKey) this.open(altKey);
    else if (name === "h" && !altKey && !shiftKey) this.open(true);
    else return false;
    return true;
  }

  /** Goes to a match, or opens the search if nothing is looked for.
   * @type {(isForward: boolean) => void} */
  stepOrOpen(isForward) {
    if (this.isOpen && this.matches) this.step(isForward);
    else this.open(false);
  }

  /** Shows the line above the text, with what is selected as the words.
   * @type {(isReplacing: boolean) => void} */
  open(isReplacing) {
    const { start, end } = this.sheet.selection();
    const selected = start.line === end.line ? this.sheet.text.lines[start.line].slice(start.column, end.column) : "";
    if (selected && !this.root.contains(document.activeElement)) this.words.value = selected;
    this.root.hidden = false;
    this.showReplace(isReplacing || (this.replacing.ariaExpanded === "true" && this.isOpen));
    this.words.focus();
    this.words.select();
    this.look();
  }

  /** @type {(isShown: boolean) => void} */
  showReplace(isShown) {
    this.replacing.ariaExpanded = String(isShown);
    this.root.classList.toggle("replacing", isShown);
  }

  /** Gives the caret back to the text. */
  close() {
    this.root.hidden = true;
    this.forget();
    this.expressions.end();
    this.sheet.area.focus({ preventScroll: true });
  }

  /** @type {(event: KeyboardEvent) => void} */
  key(event) {
    if (event.isComposing) return;
    if (event.key === "Escape") this.close();
    else if (event.key === "Enter" && event.target === this.put && event.altKey) this.replaceAll();
    else if (event.key === "Enter" && event.target === this.put) this.replaceOne();
    else if (event.key === "Enter" && /** @type {Element} */ (event.target).matches("input")) this.step(!event.shiftKey);
    else return;
    event.preventDefault();
    event.stopPropagation();
  }

  /** Other words, or another way to look for them: the first match from where the search began. */
  look() {
    const [matchesCase, isWhole, isRegular] = ["match-case", "whole-words", "regular"].map((id) => this.field(id).checked);
    this.forget();
    this.wrong = this.news = "";
    try {
      if (this.words.value) this.lookFor(sought({ words: this.words.value, matchesCase, isWhole, isRegular }));
    } catch (error) {
      this.wrong = /** @type {Error} */ (error).message;
    }
    if (this.matches) this.seek(this.from, true);
    else this.go(null);
  }

  /** Nothing is looked for. */
  forget() {
    this.matches = this.here = this.wanted = null;
    this.isDue = false;
    this.layer.clear();
  }

  /** Looks for something in the whole text.
   * @type {(what: What) => void} */
  lookFor(what) {
    const { lines } = this.sheet.text;
    this.matches = new Matches(lines, what);
    if (what.isRegular) this.expressions.look(lines, what, this.matches.gaps());
    else this.matches.count(AT_ONCE);
    this.goOn();
  }

  /** The matches of an expression in some lines are there.
   * @type {(from: number, found: import("./search_matches.js").Found[][]) => void} */
  learn(from, found) {
    this.matches?.learn(from, found);
    if (this.wanted) this.seek(this.wanted.place, this.wanted.isForward);
    else this.draw(...this.sheet.drawn);
    if (this.isDue && this.matches?.isDone) this.replaceAll();
  }

  /** The search was given up.
   * @type {(why: string) => void} */
  fail(why) {
    this.forget();
    this.wrong = why;
    this.tell();
  }

  /** Goes to the next match from a place on, or the one before it, as soon as it is known.
   * @type {(place: Place, isForward: boolean) => void} */
  seek(place, isForward) {
    const match = this.matches?.next(this.fit(place), isForward);
    this.wanted = match === undefined ? { place, isForward } : null;
    if (match === undefined) this.draw(...this.sheet.drawn);
    else this.go(match);
  }

  /** A place that is one of the text.
   * @type {(place: Place) => Place} */
  fit({ line, column }) {
    return { line: Math.min(line, this.sheet.text.lines.length - 1), column };
  }

  /** Goes on counting. */
  goOn() {
    if (this.timer || !this.matches || this.matches.isDone || this.matches.what.isRegular) return;
    this.timer = setTimeout(() => {
      this.timer = null;
      this.matches?.count(SLICE);
      this.tell();
      this.goOn();
    });
  }

  /** Goes to the next match, or the one before.
   * @type {(isForward: boolean) => void} */
  step(isForward) {
    if (!this.matches) return this.words.focus();
    this.news = "";
    const { start, end } = this.sheet.selection(), { here } = this;
    this.seek(isForward && here && this.isHere(here) ? after(here, end) : start, isForward);
  }

  /** Whether a match is what is selected.
   * @type {(match: Match | null) => boolean} */
  isHere(match) {
    const { start, end } = this.sheet.selection();
    return match !== null && start.line === match.line && end.line === match.line && start.column === match.start && end.column === match.end;
  }

  /** Selects a match, and shows it, to the side too. The focus stays where it is.
   * @type {(match: Match | null) => void} */
  go(match) {
    this.here = match ?? null;
    if (match) {
      const focus = document.activeElement;
      this.from = { line: match.line, column: match.start };
      this.sheet.bring(match.line);
      this.sheet.select(this.from, { line: match.line, column: match.end });
      if (focus !== document.activeElement && focus instanceof HTMLElement) focus.focus({ preventScroll: true });
    }
    this.draw(...this.sheet.drawn);
    this.layer.element.querySelector(".selected")?.scrollIntoView({ block: "nearest", inline: "nearest" });
  }

  /** The text is another one altogether. */
  renew() {
    if (!this.matches) return;
    this.lookFor(this.matches.what);
    this.here = null;
  }

  /** Lines of the text became others.
   * @type {(start: number, stop: number, count: number) => void} */
  edited(start, stop, count) {
    if (!this.matches) return;
    const { matches } = this, { lines } = this.sheet.text;
    matches.edited(lines, start, stop, count);
    matches.count(AT_ONCE);
    const edit = { start, stop, put: lines.slice(start, start + count) };
    if (matches.what.isRegular) this.expressions.edited(lines, edit, matches.what, matches.gaps());
    this.here = null;
    this.isDue = false;
    this.goOn();
  }

  /** Marks the matches of some lines, and says how many there are.
   * @type {(first: number, last: number) => void} */
  draw(first, last) {
    if (!this.isOpen) return;
    const { lines } = this.sheet.text, matches = this.matches?.lines === lines ? this.matches : null; // else it is renewed soon
    const here = this.isHere(this.here) ? this.here : null;
    const selected = (/** @type {number} */ line) => (here?.line === line ? here.start : -1);
    const key = (/** @type {string} */ line, /** @type {number} */ at) => `${matches?.of(at) ? selected(at) : "?"} ${line}`;
    const keys = matches ? lines.slice(first, last).map((line, n) => key(line, first + n)) : [];
    this.layer.draw(first, keys, (n) => {
      const places = (matches?.placesIn(first + n) ?? []).slice(0, MOST_MARKS);
      return rowOf(lines[first + n], places.map(({ start, end }) => [start, end, start === selected(first + n) ? "selected" : ""]));
    });
    this.tell();
  }

  /** Says which match is selected, of how many. */
  tell() {
    const { matches, here } = this;
    const isBad = Boolean(this.wrong || (matches?.isDone && !matches.total));
    const total = matches && `${matches.total}${matches.isDone ? "" : "…"}`;
    const isKnown = matches && here && this.isHere(here) && matches.isKnownTo(here.line);
    const found = isKnown ? `${matches.before(here.line, here.start) + 1} of ${total}` : `${total} found`;
    this.told.textContent = this.wrong || this.news || (!matches ? "" : isBad ? this.nothing(matches) : found);
    this.told.classList.toggle("bad", isBad && !this.news);
    this.words.setAttribute("aria-invalid", String(Boolean(this.wrong)));
    for (const button of /** @type {NodeListOf<HTMLButtonElement>} */ (this.root.querySelectorAll(".needs-match"))) button.disabled = !matches || isBad;
  }

  /** Says that nothing was found, and why if that is not plain.
   * @type {(matches: Matches) => string} */
  nothing({ what }) {
    return matchesNothing(what) ? `${NOTHING} (empty matches do not count)` : NOTHING;
  }

  /** Replaces the match that is selected, and goes to the next one; if none is selected, it goes to one. */
  replaceOne() {
    if (!this.matches) return this.words.focus();
    const { here, sheet } = this;
    if (!here || !this.isHere(here)) return this.step(true);
    const line = sheet.text.lines[here.line];
    const put = replacement(here, this.put.value, this.matches.what);
    const lines = (line.slice(0, here.start) + put + line.slice(here.end)).split("\n");
    const last = lines.length - 1;
    const place = { line: here.line + last, column: lines[last].length - (line.length - here.end) };
    this.change([{ start: here.line, taken: [line], put: lines }], place);
    this.seek(after(here, place), true);
  }

  /** Replaces all matches, as one step that can be undone; if they are not known yet, when they are. */
  replaceAll() {
    if (!this.matches) return this.words.focus();
    this.isDue = !this.matches.count(Infinity);
    if (this.isDue) return;
    const { lines } = this.sheet.text, { matches } = this, { what, total: count } = matches;
    /** @type {Replacement[]} */
    const edits = [];
    lines.forEach((line, start) => {
      const found = matches.of(start);
      const now = found?.length ? replacedIn(line, found, this.put.value, what) : [line];
      const last = edits[edits.length - 1];
      if (now.length === 1 && now[0] === line) return;
      if (last && last.start + last.taken.length === start) {
        last.taken.push(line);
        for (const one of now) last.put.push(one);
      } else {
        edits.push({ start, taken: [line], put: now });
      }
    });
    if (edits.length) this.change(edits, this.fit(this.sheet.selection().start));
    this.news = edits.length ? `${count} replaced` : "";
    this.tell();
    this.say(replacedWords(count, edits.length > 0, this.undoKey));
  }

  /** Makes edits as if they were typed, with the caret at a place after them.
   * @type {(edits: Replacement[], place: Place) => void} */
  change(edits, place) {
    const after = { start: place, end: place, direction: "forward" };
    this.sheet.text.change(edits, this.sheet.selection(), after);
    this.sheet.refresh(after);
  }
}

/** From where to look for the next match after one that ends at a place: one of no characters would be found there again.
 * @type {(match: Match, place: Place) => Place} */
function after({ start, end }, { line, column }) {
  return { line, column: start === end ? column + 1 : column };
}
