// The text box. A text area has the lines about those that are seen, and no others, so that a long book is as quick as
// a short one. Line numbers are beside it; marks of faults and the layers of other modules are below it.

import { onResize } from "../base/on_resize.js";
import { onceAFrame } from "../base/once_a_frame.js";
import { commandOf } from "../base/shortcut_names.js";
import { applyEdits, difference } from "../text/line_edits.js";
import { movedSelection, selectionAfter } from "../text/selection.js";
import { LineRows } from "./line_rows.js";
import { isLong, overwriting, partIn, placeOfKey, replacementOf, selectedText } from "./long_selection.js";

/** @typedef {import("../text/selection.js").Place} Place
 * @typedef {import("../text/selection.js").Selection} Selection
 * @typedef {import("../text/line_edits.js").Replacement} Replacement
 * @typedef {import("../link/finding_rows.js").FaultRow} FaultRow
 * A mark in the text, with its fault.
 * @typedef {HTMLElement & { fault: FaultRow }} Mark */

const MARGIN = 25; // lines above and below those that are seen: the browser lays out all of them for each key
const FAR = 100; // lines above and below a caret that leaves them
const EDGE = 6; // lines that the caret keeps from the edge of the area
const ROOM = 8; // pixels above the first line and below the last
const SIDES = 7; // pixels beside wrapped letters: Safari on a phone keeps 6 of them
const NARROW = 620; // pixels of a window in which lines wrap; narrow_screen.css knows it
const LETTERS = "0".repeat(10); // whose width is measured

export class Sheet {
  /** @param {import("../text/text.js").Text} text
   * @param {ParentNode} root */
  constructor(text, root) {
    const part = (/** @type {string} */ name) => /** @type {HTMLElement} */ (root.querySelector(name));
    this.text = text;
    this.scroller = part(".scroller");
    this.view = part(".view");
    this.paper = part(".paper");
    this.leaf = part(".leaf");
    this.numbers = part(".numbers");
    this.marks = part(".marks");
    this.here = part(".here");
    this.area = /** @type {HTMLTextAreaElement} */ (part("textarea"));
    /** @type {{ draw: (first: number, last: number) => void }[]} */
    this.layers = []; // each draws the lines about those that are seen: draw(first, last)
    this.first = this.last = 0;
    this.areaLines = [""]; // the lines in the area
    /** @type {[first: number, last: number]} */
    this.drawn = [0, 0]; // the lines that the layers have drawn
    /** @type {Selection | null} */
    this.away = null; // the selection, while its lines are not in the area, or not all of a long one
    /** @type {(first: number, last: number) => FaultRow[]} */
    this.faultsOf = () => []; // from a line, to a line: the same list until one of them is another
    /** @type {(line: number) => void} */
    this.moved = () => {}; // the caret is in another line, or lines became others
    /** @type {(place: Place) => void} */
    this.placed = () => {}; // the place of the caret
    /** @type {(faults: FaultRow[], event?: PointerEvent) => void} */
    this.pointed = () => {};
    /** @type {Selection | null} */
    this.before_input = null; // the selection before what is typed
    this.inputType = ""; // of what is typed, as the browser names it
    /** @type {{ lines: string[], selection: Selection, from: Place | null } | null} */
    this.composition = null; // the browser composes a letter: the area is left alone. The text before it, and where it begins in a long selection
    /** @type {(isComposing: boolean) => void} */
    this.composed = () => {}; // a letter is composed, or no more
    this.changed = false; // since the caret was watched last
    this.line = -1;
    this.top = 0; // what is scrolled away above the view, as the browser said last: each question makes it lay out the page
    this.high = this.scroller.clientHeight; // of the view, likewise
    this.numbered = ""; // what the numbers show
    this.marked = "[]"; // what the marks show
    /** @type {{ faults: FaultRow[], lines: string[], first: number, last: number } | null} */
    this.drawnFaults = null; // what was drawn last
    this.coverSoon = onceAFrame(() => this.cover());
    this.height = parseFloat(getComputedStyle(this.area).lineHeight); // of a row
    this.rows = new LineRows((lines) => this.measured(lines).map(({ height }) => Math.round(height / this.height)));
    this.digits = 0; // of the largest number
    this.listen();
  }

  listen() {
    const area = this.area;
    this.text.followed = (edit) => this.follow(edit);
    this.text.selected = () => this.selection();
    this.scroller.addEventListener("scroll", () => this.scrolled());
    onResize(this.scroller, () => this.resize());
    area.addEventListener("input", () => this.read());
    area.addEventListener("compositionstart", () => this.compose(true));
    area.addEventListener("compositionend", () => this.compose(false));
    area.addEventListener("blur", () => this.compose(false));
    area.addEventListener("beforeinput", (event) => this.before(event));
    area.addEventListener("copy", (event) => this.copy(event));
    area.addEventListener("cut", (event) => this.copy(event));
    area.addEventListener("keydown", (event) => this.key(event));
    area.addEventListener("mousedown", (event) => this.point(event)); // a finger that scrolls presses no button of a mouse
    area.addEventListener("pointermove", (event) => this.pointed(this.faultUnder(event), event));
    area.addEventListener("pointerleave", () => this.pointed([]));
    this.scroller.addEventListener("pointerdown", (event) => {
      if (event.target === this.scroller || event.target === this.paper) {
        event.preventDefault();
        this.go(this.text.lines.length - 1, Infinity, true);
      }
    });
    for (const name of ["keyup", "pointerup", "focus", "select"]) area.addEventListener(name, () => this.watch());
    document.addEventListener("selectionchange", () => this.watch());
  }

  /** Whether the browser composes a letter. */
  get composing() {
    return this.composition !== null;
  }

  /** The lines that are seen: from, to.
   * @type {() => [first: number, last: number]} */
  seen() {
    const { lines } = this.text, row = Math.max(0, Math.floor((this.top - ROOM) / this.height));
    return [this.rows.lineOf(lines, row), this.rows.lineOf(lines, row + Math.ceil(this.high / this.height)) + 1];
  }

  /** How far below the first line a line begins.
   * @type {(line: number) => number} */
  topOf(line) {
    return this.rows.before(this.text.lines, line) * this.height;
  }

  /** How far below the begin of the area a line begins.
   * @type {(line: number) => number} */
  topInArea(line) {
    return this.topOf(line) - this.topOf(this.first);
  }

  /** Lets lines wrap if the window is narrow; a row has as many letters as have room. The line at the top stays there. */
  fit() {
    const [first] = this.seen(), isNarrow = globalThis.innerWidth <= NARROW, letter = isNarrow ? this.measured([LETTERS])[0].width / LETTERS.length : 0;
    const width = letter ? Math.max(1, Math.floor((this.scroller.clientWidth - this.numbers.offsetWidth - SIDES) / letter)) : 0;
    if (this.composing || !this.rows.wrap(width)) return;
    this.area.wrap = width ? "soft" : "off";
    this.paper.classList.toggle("wraps", width > 0);
    this.paper.style.setProperty("--row-width", `${width * letter + 0.5}px`);
    this.drawnFaults = null;
    this.numbered = this.marked = "";
    this.stretch();
    this.scroll(first ? this.topOf(first) + ROOM : 0);
    const [from, to] = this.seen();
    this.load(from - MARGIN, to + MARGIN);
  }

  /** How wide the letters of some lines are, and how high their rows. The browser lays out all of them at once.
   * @type {(lines: string[]) => { width: number, height: number }[]} */
  measured(lines) {
    const rows = lines.map((line) => {
      const row = document.createElement("div"), letters = document.createElement("span");
      letters.textContent = line;
      row.append(letters);
      return row;
    });
    this.marks.append(...rows);
    const sizes = rows.map((row) => ({ width: row.children[0].getBoundingClientRect().width, height: row.getBoundingClientRect().height }));
    for (const row of rows) row.remove();
    return sizes;
  }

  /** Scrolls.
   * @type {(top: number) => void} */
  scroll(top) {
    this.scroller.scrollTop = top;
    this.top = this.scroller.scrollTop;
  }

  /** Someone scrolled, or the browser did. */
  scrolled() {
    this.top = this.scroller.scrollTop;
    this.look();
  }

  /** The place of an offset in the area.
   * @type {(offset: number) => Place} */
  place(offset) {
    let at = 0, column = offset;
    for (; at < this.areaLines.length - 1 && column > this.areaLines[at].length; at += 1) column -= this.areaLines[at].length + 1;
    return { line: this.first + at, column };
  }

  /** The offset of a place in the area.
   * @type {(place: Place) => number} */
  offset({ line, column }) {
    let offset = 0;
    for (let n = this.first; n < line; n += 1) offset += this.text.lines[n].length + 1;
    return offset + Math.min(column, this.text.lines[line].length);
  }

  /** Where the selection begins and ends, and its direction.
   * @type {() => Selection} */
  selection() {
    return this.away ?? this.typed();
  }

  /** The place of the caret. */
  caret() {
    const { start, end, direction } = this.selection();
    return direction === "backward" ? start : end;
  }

  /** Puts these lines into the area, and those that are selected if they are several.
   * @type {(first: number, last: number, selection?: Selection) => void} */
  load(first, last, selection = this.selection()) {
    const lines = this.text.lines;
    const { start, end, direction } = within(selection, lines);
    this.first = Math.max(0, first);
    this.last = Math.min(lines.length, last);
    if (start.line !== end.line && !isLong(selection)) {
      this.first = Math.min(this.first, start.line);
      this.last = Math.max(this.last, end.line + 1);
    }
    const inside = this.first <= start.line && end.line < this.last;
    this.areaLines = lines.slice(this.first, this.last);
    this.area.value = this.areaLines.join("\n");
    this.before_input = null;
    this.away = inside ? null : { start, end, direction };
    this.area.classList.toggle("away", !inside);
    const part = partIn({ start, end, direction }, lines, this.first, this.last);
    if (part) this.area.setSelectionRange(this.offset(part.start), this.offset(part.end), /** @type {"forward" | "backward"} */ (direction));
    else this.area.setSelectionRange(0, 0);
    this.draw();
  }

  /** Takes care that what is seen is in the area, and not much more. */
  look() {
    const [first, last] = this.seen();
    const lacking = first < this.first || (last > this.last && this.last < this.text.lines.length);
    const { start, end } = this.selection();
    const much = this.last - this.first > last - first + 2 * FAR && start.line === end.line;
    if ((lacking || much) && !this.composing) this.load(first - MARGIN, last + MARGIN);
    else if (first < this.drawn[0] || Math.min(last, this.last) > this.drawn[1]) this.drawLayers();
    this.cover();
  }

  /** The view has another height. The line of the caret stays in it, as when faults appear below the text, or a panel opens. */
  resize() {
    const { scrollTop, clientHeight } = this.scroller, before = this.high;
    this.top = scrollTop;
    this.high = clientHeight;
    const end = this.topOf(this.caret().line + 1) + ROOM;
    const isLost = end <= scrollTop + before && end > scrollTop + clientHeight;
    if (isLost && !this.away) this.reveal(this.caret().line);
    this.fit();
    this.look();
  }

  /** Covers a line of which the bottom has no room, and lets the ends of long lines fade. Nothing after the last line is covered. */
  cover() {
    const { scrollTop, scrollLeft, clientWidth, clientHeight, offsetWidth, offsetHeight, scrollWidth } = this.scroller;
    const style = this.view.style, seen = scrollTop + clientHeight - ROOM;
    style.setProperty("--rest", seen < this.topOf(this.text.lines.length) ? `${Math.max(0, seen % this.height)}px` : "0px");
    style.setProperty("--below", `${offsetHeight - clientHeight}px`);
    style.setProperty("--beside", `${offsetWidth - clientWidth}px`);
    this.view.classList.toggle("wide", scrollWidth - clientWidth - scrollLeft > 4);
  }

  /** The browser begins to compose a letter, or ends it. What it composed is read before anything else comes into the area.
   * @type {(isComposing: boolean) => void} */
  compose(isComposing) {
    if (isComposing === this.composing) return;
    if (isComposing) this.beginComposition();
    else this.endComposition();
    this.composed(isComposing);
    if (!isComposing) this.look();
  }

  /** Remembers the text before it. Of a long selection the browser replaces the part in the area, and `endComposition` the rest. */
  beginComposition() {
    const selection = this.selection(), from = isLong(this.away) ? this.typed().start : null;
    this.composition = { lines: this.text.lines, selection, from };
    if (from) this.away = null;
  }

  /** All that was composed is one step. */
  endComposition() {
    this.read();
    const before = this.composition;
    this.composition = null;
    if (!before) return;
    const { lines, selection, from } = before;
    this.text.composed(lines, selection, from ? this.composeOver(lines, selection, from) : this.typed());
  }

  /** What was composed from a place on replaces all of a long selection of the text before. Returns the selection after it.
   * @type {(lines: string[], selection: Selection, from: Place) => Selection} */
  composeOver(lines, selection, from) {
    const words = selectedText({ start: from, end: this.typed().end }, this.text.lines);
    const { edit, after } = overwriting(selection, lines, words);
    const now = difference(this.text.lines, applyEdits(lines, [edit]));
    if (now) this.text.compose(now.start, now.stop, now.put);
    this.refresh(after);
    return after;
  }

  /** Lines became others elsewhere. The selection stays with its text, and the lines that are seen stay where they are.
   * @type {(edit: Replacement) => void} */
  follow(edit) {
    const selection = this.selection(), [top, bottom] = this.seen(), { line } = this.caret();
    const more = this.rows.sum(edit.put) - this.rows.sum(edit.taken);
    this.stretch();
    if (edit.start + edit.taken.length <= top) this.scroll(this.scroller.scrollTop + more * this.height);
    const [first, last] = this.seen();
    this.load(first - MARGIN, last + MARGIN, movedSelection(selection, edit));
    if (top <= line && line < bottom) this.reveal(this.caret().line);
    this.watch();
  }

  /** The lines were changed from elsewhere.
   * @type {(selection: Selection) => void} */
  refresh(selection) {
    const [first, last] = this.seen();
    this.load(first - MARGIN, last + MARGIN, selection);
    if (selection) this.reveal(this.caret().line);
    this.watch();
  }

  /** Replaces lines, or columns from..to of a line, in a step of its own. A caret in those columns goes after what replaces them;
   * else it stays with its text.
   * @type {(edit: Replacement, columns?: [from: number, to: number]) => void} */
  replace(edit, columns) {
    const before = this.selection(), after = (columns && selectionAfter(before, edit, columns)) ?? movedSelection(before, edit);
    this.text.change([edit], before, after);
    this.refresh(after);
    this.area.focus({ preventScroll: true });
  }

  /** What was typed becomes an edit of the text. */
  read() {
    this.areaLines = this.area.value.split("\n");
    const edit = difference(this.text.lines.slice(this.first, this.last), this.areaLines);
    if (!edit) return;
    const before = this.before_input ?? this.selection();
    this.coverSoon(); // before what others draw in that frame, so that the page is laid out once
    this.last += edit.put.length - (edit.stop - edit.start);
    const from = this.first + edit.start;
    if (this.composing) this.text.compose(from, this.first + edit.stop, edit.put);
    else this.text.edit(from, this.first + edit.stop, edit.put, before, this.typed());
    this.inputType = "";
    this.draw();
    this.watch();
  }

  /** The selection in the area, after something was typed there.
   * @returns {Selection} */
  typed() {
    const { selectionStart, selectionEnd, selectionDirection } = this.area, start = this.place(selectionStart);
    return { start, end: selectionEnd === selectionStart ? start : this.place(selectionEnd), direction: selectionDirection };
  }

  /** Before the browser changes the area.
   * @type {(event: InputEvent) => void} */
  before(event) {
    if (event.inputType === "historyUndo" || event.inputType === "historyRedo") {
      event.preventDefault();
      this.history(event.inputType === "historyUndo");
    } else {
      this.before_input = this.selection();
      this.inputType = event.inputType;
      if (isLong(this.away) && !this.composing && !this.area.readOnly) this.replaceLong(event);
    }
  }

  /** What is typed replaces a long selection, of which the browser has a part alone.
   * @type {(event: InputEvent) => void} */
  replaceLong(event) {
    event.preventDefault();
    const words = replacementOf(event);
    if (words !== null) this.overwrite(words);
  }

  /** Words replace the selection, as a step.
   * @type {(words: string) => void} */
  overwrite(words) {
    const before = this.selection(), { edit, after } = overwriting(before, this.text.lines, words);
    this.text.change([edit], before, after);
    this.inputType = "";
    this.refresh(after);
  }

  /** Someone copies a long selection, or cuts it out.
   * @type {(event: ClipboardEvent) => void} */
  copy(event) {
    if (!isLong(this.away)) return;
    event.preventDefault();
    event.clipboardData?.setData("text/plain", selectedText(this.selection(), this.text.lines));
    if (event.type === "cut" && !this.area.readOnly) this.overwrite("");
  }

  /** Undoes, or does again.
   * @type {(back: boolean) => void} */
  history(back) {
    if (this.composing) return;
    const selection = back ? this.text.undo() : this.text.redo();
    if (selection) this.refresh(selection);
  }

  /** Keys that go farther than the area does.
   * @type {(event: KeyboardEvent) => void} */
  key(event) {
    if (event.isComposing) return;
    const command = commandOf(event), key = command || event.key;
    const page = this.seen()[1] - this.seen()[0] - 3;
    const { line, column } = this.caret();
    const end = this.text.lines.length - 1;
    /** @type {Record<string, [line: number, column: number]>} */
    const places = {
      PageUp: [line - page, column],
      PageDown: [line + page, column],
      ...(command && { Home: [0, 0], End: [end, Infinity] }),
    };
    const goes = places[key];
    if (goes && !event.altKey) this.move(...goes, event.shiftKey);
    else if (command && key === "a") this.select({ line: 0, column: 0 }, { line: end, column: Infinity });
    else if (command && key === "z") this.history(!event.shiftKey);
    else if (command && key === "y") this.history(false);
    else if (event.altKey || !this.leave(key, event.shiftKey)) {
      const acts = !(command && "fghs".includes(key)) && !/^(Shift|Control|Alt|Meta|Tab|Escape|F\d+)$/.test(key);
      if (this.away && acts) this.back();
      return;
    }
    event.preventDefault();
  }

  /** A key ends a long selection, or moves its end. Returns whether it does.
   * @type {(key: string, isExtended: boolean) => boolean} */
  leave(key, isExtended) {
    if (!isLong(this.away)) return false;
    const selection = this.selection(), { start, end, direction } = selection;
    const to = placeOfKey(key, selection, this.caret(), this.text.lines, isExtended);
    if (to) this.select(isExtended ? (direction === "backward" ? end : start) : to, to);
    return to !== null;
  }

  /** Moves the caret, or the end of the selection, to a place.
   * @type {(line: number, column: number, extend: boolean) => void} */
  move(line, column, extend) {
    const { start, end, direction } = this.selection();
    const to = { line: Math.max(0, Math.min(this.text.lines.length - 1, line)), column };
    this.select(extend ? (direction === "backward" ? end : start) : to, to);
  }

  /** Selects from a place to the place of the caret.
   * @type {(from: Place, to: Place) => void} */
  select(from, to) {
    const backward = to.line < from.line || (to.line === from.line && to.column < from.column);
    const [start, end] = backward ? [to, from] : [from, to];
    this.reveal(to.line);
    const [first, last] = this.seen();
    this.load(first - MARGIN, last + MARGIN, { start, end, direction: backward ? "backward" : "forward" });
    this.watch();
  }

  /** Brings the caret back into view before a key acts there. */
  back() {
    const { start, end, direction } = this.selection();
    this.select(direction === "backward" ? end : start, this.caret());
  }

  /** Someone points into the area, which is where the caret goes. With Shift the selection begins where it was, which may be outside
   * of the area.
   * @type {(event: MouseEvent) => void} */
  point({ shiftKey, button }) {
    const { away } = this;
    if (button && isLong(away)) return; // the menu of the browser acts on the selection
    this.away = null;
    this.area.classList.remove("away");
    if (!away || !shiftKey) return;
    const from = away.direction === "backward" ? away.end : away.start;
    setTimeout(() => this.select(from, this.caret())); // the browser has moved the caret then
  }

  /** Gives the paper the room of all lines. */
  stretch() {
    this.paper.style.height = `${this.topOf(this.text.lines.length) + 2 * ROOM}px`;
  }

  /** Scrolls no farther than a line wants to be seen.
   * @type {(line: number) => void} */
  reveal(line) {
    const top = this.topOf(line) + ROOM, end = this.topOf(line + 1) + this.height + ROOM, { scrollTop, clientHeight } = this.scroller;
    this.stretch();
    if (top < scrollTop) this.scroll(top - this.height);
    else if (end > scrollTop + clientHeight) this.scroll(this.aligned(end - clientHeight));
  }

  /** The top at or after a place at which a line begins.
   * @type {(top: number) => number} */
  aligned(top) {
    return top <= 0 ? 0 : Math.ceil((top - ROOM) / this.height) * this.height + ROOM;
  }

  /** Scrolls a line that is not seen to a third of the view.
   * @type {(line: number) => void} */
  bring(line) {
    const { scrollTop, clientHeight } = this.scroller, top = this.topOf(line) + ROOM;
    if (top >= scrollTop && this.topOf(line + 1) + this.height + ROOM <= scrollTop + clientHeight) return;
    this.stretch();
    this.scroll(this.aligned(top - clientHeight / 3));
  }

  /** Goes to a place, some lines below the top. A fault that begins there is visible, even if its line is longer than the view.
   * @type {(line: number, column?: number, focus?: boolean) => void} */
  go(line, column = 0, focus = false) {
    this.stretch();
    this.scroll(line < 3 ? 0 : this.topOf(line - 2) + ROOM);
    this.select({ line, column }, { line, column });
    this.scroller.scrollLeft = 0;
    const marks = /** @type {Mark[]} */ ([...this.marks.querySelectorAll("mark")]);
    this.showMark(marks.find(({ fault }) => fault[0] === line && fault[1] === column) ?? null);
    if (!focus) return;
    this.area.focus({ preventScroll: true });
    this.view.scrollIntoView({ block: "nearest" }); // on a narrow screen the text may be above what is seen
  }

  /** Scrolls to a mark in a line. If it is seen from the begin of the lines, these are not a few pixels to the side.
   * @type {(mark: Element | null) => void} */
  showMark(mark) {
    mark?.scrollIntoView({ block: "nearest", inline: "nearest" });
    const { scrollLeft, clientWidth } = this.scroller;
    if (!mark || !scrollLeft) return;
    const { left } = this.scroller.getBoundingClientRect(), { right } = mark.getBoundingClientRect();
    if (right - left + scrollLeft <= clientWidth) this.scroller.scrollLeft = 0;
  }

  /** The caret may have moved. */
  watch() {
    if (this.away && !isLong(this.away)) return;
    const { line, column } = this.caret();
    this.placed({ line, column });
    const near = !this.away && ((line < this.first + EDGE && this.first > 0) || (line >= this.last - EDGE && this.last < this.text.lines.length));
    if (near && !this.composing && document.activeElement === this.area) this.load(line - FAR, line + FAR);
    if (line === this.line && !this.changed) return;
    this.line = line;
    this.changed = false;
    this.showHere(line);
    this.moved(line);
  }

  /** Draws the numbers and the marks of the lines in the area. */
  draw() {
    const { first, last, text } = this, digits = String(text.lines.length).length;
    this.stretch();
    this.paper.style.setProperty("--digits", String(digits));
    if (digits !== this.digits) {
      this.digits = digits;
      if (this.rows.width) this.fit();
    }
    this.leaf.style.top = `${this.topOf(first) + ROOM}px`;
    this.area.style.height = `${this.topInArea(last)}px`;
    let widest = 0;
    for (let line = first; line < last; line += 1) widest = Math.max(widest, text.lines[line].length);
    this.area.style.minWidth = this.rows.width ? "0" : `${widest + 4}ch`;
    this.showHere(this.caret().line);
    this.changed = true;
    this.drawFaults();
    this.drawLayers();
    this.coverSoon();
  }

  /** Shows which line has the caret.
   * @type {(line: number) => void} */
  showHere(line) {
    const { style } = this.here, top = this.topInArea(line);
    style.top = `${top}px`;
    if (this.rows.width) style.height = `${this.topInArea(line + 1) - top}px`;
    else if (style.height) style.height = "";
  }

  /** Lets the layers draw the lines about those that are seen. A long selection may have many more lines in the area. */
  drawLayers() {
    const [first, last] = this.seen();
    this.drawn = [Math.max(this.first, first - MARGIN), Math.min(this.last, last + MARGIN)];
    for (const layer of this.layers) layer.draw(...this.drawn);
  }

  /** Draws the marks of faults, and the numbers of the lines, if something of them is another. */
  drawFaults() {
    const { first, last, drawnFaults: drawn } = this, { lines } = this.text, faults = this.faultsOf(first, last);
    if (drawn?.faults === faults && drawn.lines === lines && drawn.first === first && drawn.last === last) return;
    this.drawnFaults = { faults, lines, first, last };
    this.drawNumbers(faults);
    this.drawMarks(faults);
  }

  /** @type {(faults: FaultRow[]) => void} */
  drawMarks(faults) {
    const marked = JSON.stringify(faults.map(([line, start, end, , hint]) => [this.topInArea(line), start, end, Boolean(hint), this.text.lines[line]]));
    if (marked === this.marked) {
      const marks = /** @type {NodeListOf<Mark>} */ (this.marks.querySelectorAll("mark"));
      for (const [n, mark] of [...marks].entries()) mark.fault = faults[n];
    } else this.marks.replaceChildren(...faults.map((fault) => this.mark(fault)));
    this.marked = marked;
  }

  /** @type {(faults: FaultRow[]) => void} */
  drawNumbers(faults) {
    /** @type {Map<number, boolean>} */
    const faulty = new Map(); // by line: whether all that is there are hints
    for (const [line, , , , hint] of faults) faulty.set(line, Boolean(hint) && (faulty.get(line) ?? true));
    const rows = this.rows.width ? this.text.lines.slice(this.first, this.last).map((_, n) => this.rows.of(this.text.lines, this.first + n)) : [];
    const numbered = [this.first, this.last, ...[...faulty].flat(), ...rows].join();
    if (numbered === this.numbered) return;
    this.numbered = numbered;
    const numbers = document.createDocumentFragment();
    let plain = "";
    for (let line = this.first; line < this.last; line += 1) {
      const end = "\n".repeat(rows[line - this.first] ?? 1);
      if (faulty.has(line)) {
        const className = faulty.get(line) ? "hint" : "";
        numbers.append(plain, Object.assign(document.createElement("b"), { textContent: String(line + 1), className }), end);
        plain = "";
      } else {
        plain += `${line + 1}${end}`;
      }
    }
    numbers.append(plain);
    this.numbers.replaceChildren(numbers);
  }

  /** A mark below the place of a fault: the text before it, not to be seen, gives its place, with that after it if the line wraps.
   * @type {(fault: FaultRow) => HTMLElement} */
  mark(fault) {
    const [number, start, end] = fault;
    const line = this.text.lines[number] ?? "";
    const row = document.createElement("div"), mark = Object.assign(document.createElement("mark"), { fault });
    row.style.top = `${this.topInArea(number)}px`;
    mark.textContent = line.slice(start, Math.max(end, start + 1)) || " ";
    if (fault[4]) mark.className = "hint";
    row.append(line.slice(0, start), mark);
    if (this.rows.width) row.append(line.slice(Math.max(end, start + 1)));
    return row;
  }

  /** Where a place is in the window.
   * @type {(place: Place) => DOMRect} */
  boxOf({ line, column }) {
    const row = document.createElement("div"), words = document.createTextNode(`${this.text.lines[line]}\u200b`), here = document.createRange();
    row.style.top = `${this.topInArea(line)}px`;
    row.append(words);
    this.marks.append(row);
    here.setStart(words, column);
    here.setEnd(words, column + 1);
    const { left, top, height } = here.getBoundingClientRect();
    row.remove();
    return new DOMRect(left, top, 0, height);
  }

  /** The faults at which a mouse points.
   * @type {(event: PointerEvent) => FaultRow[]} */
  faultUnder({ clientX, clientY }) {
    const those = /** @type {(Element & { fault?: FaultRow })[]} */ (document.elementsFromPoint(clientX, clientY));
    return those.flatMap(({ fault }) => (fault ? [fault] : []));
  }
}

/** A selection that fits into these lines.
 * @type {(selection: Selection, lines: string[]) => Selection} */
function within({ start, end, direction }, lines) {
  const fit = (/** @type {Place} */ { line, column }) => {
    const number = Math.max(0, Math.min(lines.length - 1, line));
    return { line: number, column: Math.max(0, Math.min(lines[number].length, column)) };
  };
  return { start: fit(start), end: fit(end), direction };
}
