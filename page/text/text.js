// The text of the book as its lines, what can be undone, and what the server does not have yet.

import { applyEdits, difference, replaced } from "./line_edits.js";
import { movedSelection, selectionAt } from "./selection.js";
import { merging } from "./three_way_merge.js";
import { History } from "./undo_history.js";

/** @typedef {import("./line_edits.js").Replacement} Replacement
 * @typedef {import("./selection.js").Selection} Selection
 * An edit on its way to the server: lines, for the lines start..stop of its text, which were `taken`.
 * @typedef {{ start: number, stop: number, lines: string[], taken: string[] }} Sent */

/** A region of the text (`count` lines from `start`) stands for the lines start..stop of an older one, which were `taken`. It
 * grows by an edit of the text, of which these are the lines before.
 * @typedef {{ start: number, stop: number, count: number, taken: string[] }} Region
 * @param {Region | null} region
 * @param {string[]} lines
 * @param {{ start: number, stop: number, count: number }} edit
 * @returns {Region} */
export function grown(region, lines, { start, stop, count }) {
  if (!region) return { start, stop, count, taken: lines.slice(start, stop) };
  const first = Math.min(region.start, start), last = region.start + region.count;
  const end = Math.max(last, stop);
  const more = region.count - (region.stop - region.start);
  const taken = [...lines.slice(first, region.start), ...region.taken, ...lines.slice(last, end)];
  return { start: first, stop: end - more, count: end - first - (stop - start) + count, taken };
}

export class Text {
  constructor() {
    this.lines = [""];
    this.history = new History();
    /** @type {Region | null} */
    this.pending = null; // the region that the server does not have
    this.pended = () => {}; // an edit of this window is pending: called before `edited`
    /** @type {(start: number, stop: number, count: number) => void} */
    this.edited = () => {}; // start, stop, count: called after each edit
    /** @type {(edit: Replacement) => void} */
    this.followed = () => {}; // { start, taken, put }: called after each edit that was not made at the selection
    /** @type {() => Selection} */
    this.selected = () => selectionAt({ line: 0, column: 0 }); // the present selection
  }

  /** The whole text that the server has. What can be undone stays, if other lines became different.
   * @type {(lines: string[]) => void} */
  open(lines) {
    const edit = difference(this.lines, lines), old = this.lines;
    this.pending = null;
    this.lines = lines;
    if (!edit) return;
    this.history.others(edit.start, edit.stop, edit.put.length);
    this.followed({ start: edit.start, taken: old.slice(edit.start, edit.stop), put: edit.put });
  }

  /** The server has these lines alone: what is different in this text is pending.
   * @type {(lines: string[]) => void} */
  behind(lines) {
    const edit = difference(lines, this.lines);
    this.pending = edit && { start: edit.start, stop: edit.stop, count: edit.put.length, taken: lines.slice(edit.start, edit.stop) };
  }

  /** Makes the text these lines, as a step that can be undone; whether they are others.
   * @type {(lines: string[]) => boolean} */
  become(lines) {
    const edit = difference(this.lines, lines);
    if (!edit) return false;
    const whole = { start: edit.start, taken: this.lines.slice(edit.start, edit.stop), put: edit.put }, before = this.selected();
    this.history.add({ edits: [whole], before, after: movedSelection(before, whole) }, true);
    this.put([whole], true);
    return true;
  }

  /** An edit of this window; `before` and `after` are the selections.
   * @type {(start: number, stop: number, put: string[], before: Selection, after: Selection) => void} */
  edit(start, stop, put, before, after) {
    const edits = [{ start, taken: this.lines.slice(start, stop), put }];
    this.history.add({ edits, before, after });
    this.put(edits);
  }

  /** An edit of this window by a letter that is composed: `composed` adds the step.
   * @type {(start: number, stop: number, put: string[]) => void} */
  compose(start, stop, put) {
    this.put([{ start, taken: this.lines.slice(start, stop), put }]);
  }

  /** The text had these lines before something was composed: that is one step, or none if they are there again.
   * @type {(lines: string[], before: Selection, after: Selection) => void} */
  composed(lines, before, after) {
    const edit = difference(lines, this.lines);
    if (edit) this.history.add({ edits: [{ start: edit.start, taken: lines.slice(edit.start, edit.stop), put: edit.put }], before, after });
  }

  /** Several edits of this window, which are undone together and alone: in order, at places of the present text.
   * @type {(edits: Replacement[], before: Selection, after: Selection) => void} */
  change(edits, before, after) {
    this.history.add({ edits, before, after }, true);
    this.put(edits);
  }

  /** Takes the last step back; the selection that was before it, or null.
   * @type {() => Selection | null} */
  undo() {
    return this.go(this.history.undo());
  }

  /** Does again what was undone last.
   * @type {() => Selection | null} */
  redo() {
    return this.go(this.history.redo());
  }

  /** Makes the edits of a step; the selection after it. A text has a line, so a step that leaves none puts in an empty one.
   * @type {(step: import("./undo_history.js").Step | null) => Selection | null} */
  go(step) {
    if (!step) return null;
    const { edits } = step;
    const more = edits.reduce((sum, { taken, put }) => sum + put.length - taken.length, 0);
    this.put(this.lines.length + more ? edits : [{ ...edits[0], put: [""] }, ...edits.slice(1)]);
    return step.after;
  }

  /** Makes edits of this window; `isElsewhere` says whether they are not made at the selection.
   * @type {(edits: Replacement[], isElsewhere?: boolean) => void} */
  put(edits, isElsewhere = false) {
    const last = edits[edits.length - 1], start = edits[0].start, stop = last.start + last.taken.length;
    const count = edits.reduce((sum, { taken, put }) => sum + put.length - taken.length, stop - start);
    this.pending = grown(this.pending, this.lines, { start, stop, count });
    this.lines = applyEdits(this.lines, edits);
    this.pended();
    this.edited(start, stop, count);
    if (isElsewhere) edits.forEach((edit) => this.followed(edit));
  }

  /** The edit that brings the server up to date; the text has it to send no more.
   * @type {() => Sent | null} */
  take() {
    if (!this.pending) return null;
    const { start, stop, count, taken } = this.pending;
    this.pending = null;
    return { start, stop, lines: this.lines.slice(start, start + count), taken };
  }

  /** An edit did not reach the server: it is pending again, under what was typed meanwhile.
   * @type {(sent: Sent) => void} */
  giveBack({ start, stop, lines, taken }) {
    const later = this.pending;
    const region = { start, stop, count: lines.length, taken };
    this.pending = later ? grown(region, replaced(this.lines, later.start, later.start + later.count, later.taken), later) : region;
  }

  /** An edit of another window, of the text that the server had. Lines put in before a line are not that line; two windows that
   * put lines in at one place have the other's first. What another program wrote can be undone; `writing` is its name. Returns
   * whether both windows changed the same letters: then both have their lines, the other's first.
   * @type {(start: number, stop: number, put: string[], writing?: string | null) => boolean} */
  others(start, stop, put, writing = null) {
    const own = this.pending;
    const more = own ? own.count - (own.stop - own.start) : 0;
    const shift = put.length - (stop - start);
    let isTwice = false;
    if (!own || start > own.stop || (start === own.stop && (start > own.start || stop > start))) {
      this.follow(start + more, stop + more, put, own ? null : writing);
    } else if (stop <= own.start) {
      this.pending = { ...own, start: own.start + shift, stop: own.stop + shift };
      this.follow(start, stop, put);
    } else {
      isTwice = this.meet(start, stop, put, own);
    }
    if (!this.lines.length) this.put([{ start: 0, taken: [], put: [""] }], true); // each window took what the other one left
    return isTwice;
  }

  /** An edit of another window in lines that this window changed too; whether both have their lines.
   * @type {(start: number, stop: number, put: string[], own: Region) => boolean} */
  meet(start, stop, put, own) {
    const { lines } = this;
    const first = Math.min(own.start, start), end = Math.max(own.stop, stop) + own.count - (own.stop - own.start);
    const base = [...lines.slice(first, own.start), ...own.taken, ...lines.slice(own.start + own.count, end)];
    const mine = lines.slice(first, end), theirs = replaced(base, start - first, stop - first, put);
    const { edits, isTwice } = merging(base, mine, theirs);
    const count = edits.reduce((sum, edit) => sum + edit.put.length - edit.taken.length, mine.length);
    this.pending = { start: first, stop: first + theirs.length, count, taken: theirs };
    for (const edit of edits) this.follow(first + edit.start, first + edit.start + edit.taken.length, edit.put);
    return isTwice;
  }

  /** The server has lines that were made of `base`, as the lines of this text were: this text gets what they have. What they do not
   * have is pending. Returns whether both changed the same letters. `edited` is not called.
   * @type {(base: string[], theirs: string[]) => boolean} */
  rebase(base, theirs) {
    const { edits, isTwice } = merging(base, this.lines, theirs);
    for (const edit of edits) {
      const { start, taken, put } = edit;
      this.history.others(start, start + taken.length, put.length);
      this.lines = replaced(this.lines, start, start + taken.length, put);
      this.followed(edit);
    }
    if (!this.lines.length) this.lines = [""];
    this.behind(theirs);
    return isTwice;
  }

  /** Lines of this window's text become those of another's: in a step that can be undone, if another program wrote them, or else
   * before all steps.
   * @type {(start: number, stop: number, put: string[], writing?: string | null) => void} */
  follow(start, stop, put, writing = null) {
    const edit = { start, taken: this.lines.slice(start, stop), put }, before = this.selected();
    if (!difference(edit.taken, put)) return; // only their bytes are others
    if (writing === null) this.history.others(start, stop, put.length);
    else this.history.addWritten(writing, edit, before, movedSelection(before, edit));
    this.lines = replaced(this.lines, start, stop, put);
    this.edited(start, stop, put.length);
    this.followed(edit);
  }
}
