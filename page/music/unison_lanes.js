// Unisons: notes of several voices on one key at one time share the row of the key, each in a lane of its own.

/** @typedef {import("./midi_file.js").Note} Note
 * @typedef {{ lane: number, of: number }} Lane */

/** By note, if others are in unison with it: its lane, counted from above, and how many there are.
 * @type {(notes: Note[]) => Map<Note, Lane>} */
export function lanesOf(notes) {
  const groups = new Map(); // by key: the notes that overlap, and the tick at which the last one ends
  const lanes = new Map();
  for (const note of notes) {
    const group = groups.get(note.key);
    if (group && note.start < group.end) {
      group.notes.push(note);
      group.end = Math.max(group.end, note.end);
    } else {
      if (group) share(group.notes, lanes);
      groups.set(note.key, { notes: [note], end: note.end });
    }
  }
  for (const group of groups.values()) share(group.notes, lanes);
  return lanes;
}

/** Gives the voices of notes that overlap a lane each.
 * @type {(notes: Note[], lanes: Map<Note, Lane>) => void} */
function share(notes, lanes) {
  const voices = [...new Set(notes.map(({ voice }) => voice))].sort((a, b) => a - b);
  if (voices.length < 2) return;
  for (const note of notes) lanes.set(note, { lane: voices.indexOf(note.voice), of: voices.length });
}
