// The entries of a play.

const KINDS = ["Other", "Note", "Rest", "Bar"]; // by their numbers in the module
const NO_KEY = 128; // of an entry without a key
const JOINED = 1, TIED = 2; // bits of the ties of a tone

export const ENTRY_SIZE = 32; // bytes of an entry in the module

/** The kind of a number of the module. */
export function entryKindOf(number) {
  return KINDS[number] ?? KINDS[0];
}

/** The entry at an index of bytes of the module. The columns of its line in UTF-16 units are those of `columnsOf(line)`. */
export function entryAt(view, index, columnsOf) {
  const at = index * ENTRY_SIZE;
  const [on, off] = [0, 8].map((place) => Number(view.getBigUint64(at + place, true)));
  const [line, from, to] = [16, 20, 24].map((place) => view.getUint32(at + place, true));
  const [kind, key, velocity, ties] = [28, 29, 30, 31].map((place) => view.getUint8(at + place));
  const columns = columnsOf(line), sound = key === NO_KEY ? { key: null, velocity: null } : { key, velocity };
  const place = { line, from, to, utf16From: columns[from - 1], utf16To: columns[to - 1] };
  return { on, off, kind: entryKindOf(kind), ...sound, joined: (ties & JOINED) !== 0, tied: (ties & TIED) !== 0, ...place };
}
