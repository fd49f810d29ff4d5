// The dialog that transposes the tune at the caret, or what is selected.

import { button, field, find } from "../base/elements.js";
import { counted } from "../base/plural.js";
import { semitonesTo, tonicsOf } from "../tunes/key_field.js";
import { barsOf, firstKey, transposed } from "../tunes/transpose.js";
import { TuneDialog } from "./tune_dialog.js";

/** @typedef {import("../tunes/transpose.js").Range} Range
 * @typedef {import("../tunes/transpose.js").By} By
 * @typedef {import("../tunes/transpose.js").Left} Left
 * @typedef {import("../tunes/tune_lines.js").TuneLines} TuneLines */

const MOST_SEMITONES = 36;
const HIGHEST = 127; // key of MIDI

export class TransposeDialog extends TuneDialog {
  /** @param {import("./tune_dialog.js").Parts} parts */
  constructor(parts) {
    super(parts, "transpose", (tunes, range) => changeOf(tunes, range, (key) => this.by(key)));
    this.keys = /** @type {HTMLSelectElement} */ (find("transpose-key"));
    this.directions = /** @type {HTMLSelectElement} */ (find("transpose-direction"));
    find("transpose-first").addEventListener("input", () => (field("transpose-by-semitones").checked = true));
    for (const one of [this.keys, this.directions]) {
      one.addEventListener("input", () => (field("transpose-by-key").checked = true));
      one.addEventListener("keydown", (event) => transposeByEnter(event));
    }
    this.form.addEventListener("input", ({ target }) => target instanceof HTMLInputElement && target.name === "transpose-what" && this.offer());
    this.opened = () => this.offer();
  }

  /** Offers the keys that the first key may go to. */
  offer() {
    const key = this.tunes && firstKey(this.tunes.lines, this.range), chosen = this.keys.value || key?.tonic;
    const tonics = key ? tonicsOf(key) : [];
    this.keys.replaceChildren(...tonics.map((tonic) => new Option(tonic + (key?.mode ?? ""), tonic, false, tonic === chosen)));
    field("transpose-by-key").disabled = this.keys.disabled = this.directions.disabled = !key;
    if (!key) field("transpose-by-semitones").checked = true;
  }

  /** By how much, as it is chosen.
   * @type {(key: import("../tunes/key_field.js").Key | null) => By} */
  by(key) {
    const { keys, directions } = this, number = Math.trunc(field("transpose-first").valueAsNumber) || 0;
    if (!key || !field("transpose-by-key").checked) return { semitones: Math.max(-MOST_SEMITONES, Math.min(MOST_SEMITONES, number)) };
    return { semitones: semitonesTo(key, keys.value, /** @type {"near" | "up" | "down"} */ (directions.value)), tonic: keys.value };
  }
}

/** Enter transposes from a list too, in which it would open the choices. Space and Alt-↓ open them.
 * @type {(event: KeyboardEvent) => void} */
function transposeByEnter(event) {
  if (event.key !== "Enter") return;
  event.preventDefault();
  button("transpose-do").click();
}

/** What becomes of the lines of tunes, or of a part of them.
 * @type {(tunes: TuneLines, range: Range | null, by: (key: import("../tunes/key_field.js").Key | null) => By) => import("./tune_dialog.js").Change} */
export function changeOf({ lines, plays, first }, range, by) {
  const { semitones, tonic } = by(firstKey(lines, range)), isOctaves = semitones % 12 === 0 && !tonic, part = range && !isOctaves ? barsOf(lines, range) : range;
  const { lines: found, left, keys, range: now } = transposed(lines, { semitones, tonic }, part);
  const way = wayOf(semitones), from = keys && !isOctaves ? `, from ${keys[0]} to ${keys[1]}` : "", bars = part !== range ? " Whole bars are transposed." : "";
  const silent = tooFar(plays, semitones, (line, column) => lines[line - first]?.text.slice(column), part, first);
  return { lines: found, left: [...left, ...silent], words: `${way}${from}.${bars}`, done: `Transposed: ${way.toLowerCase()}${from}.`, range: range && now };
}

/** A number of semitones in words.
 * @type {(semitones: number) => string} */
export function wayOf(semitones) {
  const count = Math.abs(semitones), octaves = count / 12, words = octaves && Number.isInteger(octaves) ? counted(octaves, "octave") : counted(count, "semitone");
  return semitones ? `${words} ${semitones > 0 ? "up" : "down"}` : "No semitones";
}

/** The notes of a part that MIDI does not have that high or low.
 * @type {(plays: import("../link/tokens_and_plays.js").Entry[][], semitones: number, textAt: (line: number, column: number) => string, part: Range | null, first: number) => Left[]} */
function tooFar(plays, semitones, textAt, part, first) {
  /** @type {Map<string, Left>} */
  const found = new Map();
  for (const { key, line, from, to } of plays.flat()) {
    if (key === null || (key + semitones >= 0 && key + semitones <= HIGHEST)) continue;
    const at = line - first, isBefore = part && (at < part.start.line || (at === part.start.line && to <= part.start.column));
    if (isBefore || (part && (at > part.end.line || (at === part.end.line && from >= part.end.column)))) continue;
    found.set(`${line} ${from}`, { line: at, text: textAt(line, from).slice(0, to - from), why: `it would be too ${semitones > 0 ? "high" : "low"}, and silent` });
  }
  return [...found.values()];
}
