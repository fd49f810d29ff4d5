// Tries dragging and selecting notes of the score without a browser. The argument is the folder of the page's scripts. Each test prints a
// line, `ok` or `FAILED`, with its name.

import { pathToFileURL } from "node:url";

import { run, same } from "../testing.mjs";

const { chordColumns, draggedNote, nearest } = await import(pathToFileURL(`${process.argv[2]}/score/dragged_note.js`));
const { SelectedNotes, notesIn } = await import(pathToFileURL(`${process.argv[2]}/score/selected_notes.js`));

/** A note of the score, with the classes of its element. */
function note(line, column, length) {
  const classes = new Set();
  return { line, column, length, classes, element: { classList: { add: (name) => classes.add(name), remove: (name) => classes.delete(name) } } };
}

const tests = {
  "a note that is dragged moves by letters, through the octaves"() {
    same([draggedNote("CDE", 1, 1), draggedNote("CDE", 1, -1), draggedNote("CDE", 1, 7)], ["CEE", "CCE", "CdE"]);
    same([draggedNote("B2|c", 0, 1), draggedNote("B2|c", 3, -1), draggedNote("b/2", 0, 1), draggedNote("C", 0, -1), draggedNote("c''", 0, -14)], ["c2|c", "B2|B", "c'/2", "B,", "c"]);
  },

  "it has the accidental of its key where it is dropped"() {
    same([draggedNote("^F2", 0, 1), draggedNote("__B,", 0, 1), draggedNote("A=c'", 1, -7)], ["G2", "C", "Ac"]);
  },

  "the notes of a chord are known by their columns, from the lowest one on"() {
    same([chordColumns("[CEG]", 0), chordColumns("A[c^E,-G/2]2|", 1), chordColumns("[B,b]", 0)], [[1, 2, 3], [3, 7, 2], [1, 3]]);
    same([chordColumns('["Am"!f!{gab}C2e]', 0), chordColumns("[F^F]", 0)], [[13, 15], [1, 2]]);
    same([chordColumns("CEG", 0), chordColumns("[K:G]A", 0), chordColumns("[|C]", 0), chordColumns("[CE", 0)], [[], [], [], []]);
    same(draggedNote("[C^EG]2", 2, 2), "[CGG]2");
  },

  "the head that is nearest to the mouse is dragged"() {
    same([nearest([96, 90, 84], 91), nearest([96, 90, 84], 200), nearest([60], 0), nearest([96, 90], 93)], [1, 0, 0, 0]);
  },

  "what is no single note, or has no key of MIDI, stays"() {
    same([draggedNote("[CE]2", 0, 1), draggedNote("z2", 0, 1), draggedNote("", 0, 1), draggedNote("C", 5, 1)], [null, null, null, null]);
    same([draggedNote("C", 0, 43), draggedNote("C", 0, -36)], [null, null]);
  },

  "the notes of a selection are those that it has a part of"() {
    const notes = [note(3, 0, 2), note(3, 2, 1), note(3, 4, 3), note(4, 0, 1)], at = (line, column) => ({ line, column });
    const those = (start, end) => notesIn(notes, { start, end }).map((one) => notes.indexOf(one));
    same([those(at(3, 2), at(3, 4)), those(at(3, 1), at(3, 5)), those(at(3, 7), at(4, 0)), those(at(0, 0), at(9, 0))], [[1], [0, 1, 2], [], [0, 1, 2, 3]]);
  },

  "another selection marks other notes, and a caret none"() {
    const notes = [note(3, 0, 1), note(3, 1, 1)], selected = new SelectedNotes(), at = (column) => ({ line: 3, column });
    const marked = () => notes.map(({ classes }) => [...classes].join());
    selected.show(notes, { start: at(0), end: at(1) });
    same(marked(), ["score-selected", ""]);
    selected.show(notes, { start: at(1), end: at(2) });
    same(marked(), ["", "score-selected"]);
    selected.show(notes, { start: at(2), end: at(2) });
    same(marked(), ["", ""]);
  },
};

await run(tests);
process.exit(0);
