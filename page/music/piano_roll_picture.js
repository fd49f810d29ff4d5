// The picture of a piano roll: what is seen of it is drawn on its canvas.

/** @typedef {import("./piano_roll.js").Roll} Roll
 * What is drawn: a roll on a pen, its score and its bars, its size in pixels, and where keys and ticks are.
 * @typedef {object} View
 * @property {Roll} roll
 * @property {import("./midi_file.js").Score} score
 * @property {import("./bars_and_beats.js").Grid} grid
 * @property {CanvasRenderingContext2D & { roundRect: (...box: number[]) => void }} pen
 * @property {number} wide
 * @property {number} high
 * @property {number} row
 * @property {(name: string) => string} colour
 * @property {(key: number) => number} top
 * @property {(tick: number) => number} x
 * @typedef {[left: number, top: number, wide: number, high: number]} Box */

export const HEAD = 18; // pixels above the keys, for the numbers of the bars
export const FOOT = 8; // pixels below them, where a scroll bar may lie over the roll
export const SIDE = 34; // pixels before the notes, for the names of the keys
const LETTERS = 12; // pixels that the name of a key needs
const NUMBER = 30; // pixels that the number of a bar needs
const FEWEST = 14; // pixels between beats that are drawn
const FONT = "11px system-ui, sans-serif";
const BLACK = new Set([1, 3, 6, 8, 10]);
const CS = Array.from({ length: 11 }, (_, octave) => 12 * octave);
const NAMES = ["C", "C♯", "D", "E♭", "E", "F", "F♯", "G", "G♯", "A", "B♭", "B"];

/** The name of a key, with its octave: 60 is C4.
 * @type {(key: number) => string} */
export function nameOf(key) {
  return `${NAMES[key % 12]}${Math.floor(key / 12) - 1}`;
}

/** Draws what is seen of a roll.
 * @param {Roll} roll */
export function drawRoll(roll) {
  const { scroller, score, grid } = roll;
  const wide = scroller.clientWidth, high = scroller.clientHeight;
  const pen = clear(roll.canvas, wide, high);
  if (!score || !grid || !pen) return;
  const { scrollTop, scrollLeft } = scroller; // each question to the browser costs as much as a note
  /** @type {View} */
  const view = {
    roll, score, grid, pen, wide, high, row: roll.row,
    colour: coloursOf(getComputedStyle(scroller)),
    top: (key) => roll.down(key) - scrollTop,
    x: (tick) => roll.along(tick) - scrollLeft,
  };
  drawRows(view);
  drawLoop(view);
  drawBars(view);
  drawNotes(view);
  drawHead(view);
  drawCursor(view);
  drawNames(view);
}

/** Returns what gives a colour by its name. It asks the browser for each colour once.
 * @type {(style: CSSStyleDeclaration) => (name: string) => string} */
function coloursOf(style) {
  /** @type {Map<string, string>} */
  const known = new Map();
  return (name) => {
    const colour = known.get(name) ?? style.getPropertyValue(`--${name}`);
    known.set(name, colour);
    return colour;
  };
}

/** Returns the drawing context of an empty canvas of this size in pixels.
 * @type {(canvas: HTMLCanvasElement, wide: number, high: number) => View["pen"] | null} */
function clear(canvas, wide, high) {
  const scale = devicePixelRatio;
  if (canvas.width !== Math.round(wide * scale) || canvas.height !== Math.round(high * scale)) {
    canvas.width = Math.round(wide * scale);
    canvas.height = Math.round(high * scale);
    canvas.style.width = `${wide}px`;
    canvas.style.height = `${high}px`;
  }
  const pen = /** @type {View["pen"] | null} */ (canvas.getContext("2d"));
  if (!pen) return null;
  pen.setTransform(scale, 0, 0, scale, 0, 0);
  pen.clearRect(0, 0, wide, high);
  pen.font = FONT;
  return pen;
}

/** The rows of the black keys, and a line below each C.
 * @type {(view: View) => void} */
function drawRows({ roll, pen, wide, row, colour, top }) {
  for (let key = roll.low; key <= roll.high; key += 1) {
    pen.fillStyle = colour("row");
    if (BLACK.has(((key % 12) + 12) % 12)) pen.fillRect(0, top(key), wide, row);
    pen.fillStyle = colour("line");
    if (key % 12 === 0) pen.fillRect(0, top(key) + row, wide, 1);
  }
}

/** The ground of what is played in a loop.
 * @type {(view: View) => void} */
function drawLoop({ roll, pen, high, colour, x }) {
  if (!roll.loop) return;
  const [from, to] = roll.loop.map(x);
  pen.fillStyle = colour("loop");
  pen.fillRect(from, 0, to - from, high);
}

/** The places in the list of the bars that are seen.
 * @type {(view: View) => number[]} */
function seenBars({ roll, grid, wide }) {
  const { scroller } = roll;
  const first = grid.placeAt(roll.tickAt(scroller.scrollLeft)), last = grid.placeAt(roll.tickAt(scroller.scrollLeft + wide));
  return Array.from({ length: Math.min(grid.bars.length, last + 1) - first }, (_, n) => first + n);
}

/** Lines at the bars, fainter ones at the beats that have room.
 * @type {(view: View) => void} */
function drawBars(view) {
  const { roll, score, grid, pen, high, colour, x } = view;
  for (const place of seenBars(view)) {
    const [bar, ...beats] = grid.beatsOf(place);
    pen.fillStyle = colour("beat");
    if (beats.length && x(beats[0]) - x(bar) >= Math.min(FEWEST, roll.quarter / 2)) for (const beat of beats) pen.fillRect(x(beat), HEAD, 1, high);
    pen.fillStyle = colour("bar-line");
    pen.fillRect(x(bar), 0, 1, high);
  }
  pen.fillStyle = colour("bar-line");
  pen.fillRect(x(score.end), 0, 1, high);
}

/** The notes: one that sounds in the ink of the text, every other one in the colour of its voice, the louder the stronger; those of
 * silent voices as outlines. The notes of the caret have a frame.
 * @type {(view: View) => void} */
function drawNotes(view) {
  const { roll, score, pen, wide, row, colour, top, x } = view;
  const shades = roll.colours;
  for (const note of score.notes) {
    const left = x(note.start), right = x(note.end);
    if (left > wide) break;
    if (right < 0) continue;
    const { lane, of } = roll.lanes.get(note) ?? { lane: 0, of: 1 };
    const sounds = roll.tick !== null && note.start <= roll.tick && roll.tick < note.end;
    /** @type {Box} */
    const box = [left + 0.5, top(note.key) + (lane * row) / of + 0.5, Math.max(2, right - left - 1.5), Math.max(2, row / of - 1)];
    pen.fillStyle = pen.strokeStyle = sounds && !roll.silent.has(note.voice) ? colour("ink") : shades.of(note.voice, note.velocity);
    pen.beginPath();
    pen.roundRect(...box, 2);
    pen.lineWidth = 1;
    if (roll.silent.has(note.voice)) pen.stroke();
    else pen.fill();
    if (roll.pointedAt.has(note)) frame(pen, box, colour("cursor"));
  }
}

/** @type {(pen: View["pen"], box: Box, colour: string) => void} */
function frame(pen, [left, top, wide, high], colour) {
  pen.strokeStyle = colour;
  pen.lineWidth = 2;
  pen.beginPath();
  pen.roundRect(left - 2, top - 2, wide + 4, high + 4, 3);
  pen.stroke();
}

/** The numbers of the bars, which stay above the notes; a pickup has none.
 * @type {(view: View) => void} */
function drawHead(view) {
  const { roll, score, grid, pen, wide, colour, x } = view;
  pen.fillStyle = colour("paper");
  pen.fillRect(0, 0, wide, HEAD - 1);
  if (roll.loop) {
    const [from, to] = roll.loop.map(x);
    pen.fillStyle = colour("loop");
    pen.fillRect(from, 0, to - from, HEAD - 1);
    pen.fillStyle = colour("accent");
    pen.fillRect(from, HEAD - 3, to - from, 2);
  }
  pen.fillStyle = colour("bar-line");
  pen.fillRect(x(score.end), 0, 1, HEAD);
  pen.textAlign = "left";
  pen.textBaseline = "alphabetic";
  let free = -Infinity;
  for (const place of seenBars(view)) {
    const { tick, number, offset } = grid.bars[place], at = x(tick);
    pen.fillStyle = colour("bar-line");
    pen.fillRect(at, 0, 1, HEAD);
    if (at < free || offset) continue;
    pen.fillStyle = colour("quiet");
    pen.fillText(String(number), at + 4, 12);
    free = at + NUMBER;
  }
}

/** @type {(view: View) => void} */
function drawCursor({ roll, pen, high, colour, x }) {
  if (roll.tick === null) return;
  pen.fillStyle = colour("cursor");
  pen.fillRect(x(roll.tick) - 1, 0, 2, high);
}

/** The names of the lowest and the highest key that sound, and of each C that has room. They stay where they are.
 * @type {(view: View) => void} */
function drawNames({ roll, pen, high, row, colour, top }) {
  pen.fillStyle = colour("paper");
  pen.fillRect(0, 0, SIDE, high);
  pen.fillStyle = colour("line");
  pen.fillRect(SIDE - 1, 0, 1, high);
  pen.fillStyle = colour("quiet");
  pen.textAlign = "right";
  pen.textBaseline = "middle";
  /** @type {number[]} */
  const named = [];
  for (const key of [roll.lowest, roll.highest, ...CS]) {
    if (key < roll.low || key > roll.high || named.some((other) => Math.abs(other - key) * row < LETTERS)) continue;
    if (top(key) < HEAD - row / 2) continue;
    named.push(key);
    pen.fillText(nameOf(key), SIDE - 6, top(key) + row / 2);
  }
}
