// How notes are fingered: on a whistle in D, and on instruments with strings, in the first position.

/** How a note is fingered: the holes of a pipe from the top, each closed (1), half closed (0.5) or open (0), and whether it is blown
 * harder; or the string, from the lowest on, its fret, its finger in the first position, and the names of all strings. Null if the instrument does not have the
 * note.
 * @typedef {{ holes: number[], isHigh: boolean } | { string: number, fret: number, finger: number | null, strings: string[] } | null} Fingering
 * @typedef {{ name: string, of: (key: number) => Fingering }} Player */

const WHISTLE = [
  [1, 1, 1, 1, 1, 1], [1, 1, 1, 1, 1, 0.5], [1, 1, 1, 1, 1, 0], [1, 1, 1, 1, 0.5, 0], [1, 1, 1, 1, 0, 0], [1, 1, 1, 0, 0, 0], [1, 1, 0.5, 0, 0, 0],
  [1, 1, 0, 0, 0, 0], [1, 0.5, 0, 0, 0, 0], [1, 0, 0, 0, 0, 0], [0, 1, 1, 0, 0, 0], [0, 0, 0, 0, 0, 0],
]; // the twelve notes from D on
const HIGH_D = [0, 1, 1, 1, 1, 1];
const LOWEST = 62; // the written D of a whistle, which sounds an octave higher
const FIFTHS = [55, 62, 69, 76], GUITAR = [40, 45, 50, 55, 59, 64]; // open strings
const NAMES = ["C", "C♯", "D", "E♭", "E", "F", "F♯", "G", "G♯", "A", "B♭", "B"];

/** A whistle in D has two octaves, up to C sharp.
 * @type {(key: number) => Fingering} */
function whistle(key) {
  const above = key - LOWEST;
  if (above < 0 || above > 23) return null;
  return { holes: above === 12 ? HIGH_D : WHISTLE[above % 12], isHigh: above >= 12 };
}

/** A note on the highest string that has it, up to a fret. `fingers` are those of the frets of the first position.
 * @type {(open: number[], fingers: number[], most: number) => (key: number) => Fingering} */
const onStrings = (open, fingers, most) => (key) => {
  const string = open.findLastIndex((lowest) => lowest <= key), fret = key - (open[string] ?? 0);
  if (string < 0 || fret > most) return null;
  return { string, fret, finger: fingers[fret] ?? null, strings: open.map((one) => NAMES[one % 12]) };
};

/** The instruments by the names that the page keeps.
 * @type {Record<string, Player>} */
export const PLAYERS = {
  whistle: { name: "Whistle in D", of: whistle },
  fiddle: { name: "Fiddle", of: onStrings(FIFTHS, [0, 1, 1, 2, 2, 3, 3, 4], 7) },
  mandolin: { name: "Mandolin", of: onStrings(FIFTHS, [0, 1, 1, 2, 2, 3, 3, 4], 17) },
  guitar: { name: "Guitar", of: onStrings(GUITAR, [0, 1, 2, 3, 4], 19) },
};

/** A fingering in words.
 * @type {(fingering: Fingering) => string} */
export function fingeringWords(fingering) {
  if (!fingering) return "not in its range";
  if ("holes" in fingering) {
    const names = fingering.holes.map((hole) => (hole === 1 ? "closed" : hole ? "half" : "open"));
    return `${names.join(", ")}${fingering.isHigh ? ", blown harder" : ""}`;
  }
  const { string, fret, finger, strings } = fingering;
  return `${strings[string]} string, ${fret ? `fret ${fret}` : "open"}${fret && finger ? `, finger ${finger}` : ""}`;
}
