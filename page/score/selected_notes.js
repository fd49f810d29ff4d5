// Shows in the score which notes are selected in the text.

/** @typedef {import("../text/selection.js").Selection} Selection
 * @typedef {{ line: number, column: number, length: number, element: Element }} Note */

/** Those notes that a selection has a part of.
 * @template {{ line: number, column: number, length: number }} T
 * @param {T[]} notes
 * @param {Pick<Selection, "start" | "end">} selection */
export function notesIn(notes, { start, end }) {
  return notes.filter(({ line, column, length }) => {
    const isAfter = line > start.line || (line === start.line && column + length > start.column);
    return isAfter && (line < end.line || (line === end.line && column < end.column));
  });
}

export class SelectedNotes {
  constructor() {
    /** @type {Note[]} */
    this.marked = [];
  }

  /** Marks the notes of a selection, and no others. A caret alone costs nothing.
   * @type {(notes: Note[], selection: Selection) => void} */
  show(notes, selection) {
    const { start, end } = selection, isCaret = start.line === end.line && start.column === end.column;
    if (isCaret && !this.marked.length) return;
    const wanted = isCaret ? [] : notesIn(notes, selection);
    for (const { element } of this.marked) element.classList.remove("score-selected");
    for (const { element } of wanted) element.classList.add("score-selected");
    this.marked = wanted;
  }
}
