// Notes that are played on a MIDI keyboard are written at the caret, in the key and the unit of the tune. Each is one step.

import { button, find, show } from "../base/elements.js";
import { tuneOf } from "../score/score_view.js";
import { BLANK } from "../text/blank_line.js";
import { tokenLines } from "../tunes/tune_lines.js";
import { MidiKeyboard } from "./midi_keyboard.js";
import { contextAt } from "./note_context.js";
import { spelled } from "./spelled_notes.js";

/** @typedef {import("./note_context.js").Line} Line
 * `say` shows a sentence, `sound` lets keys sound.
 * @typedef {object} Parts
 * @property {import("../link/book_host.js").BookHost} server
 * @property {import("../link/host_link.js").Link} link
 * @property {import("../link/findings.js").Findings} findings
 * @property {import("../editor/text_sheet.js").Sheet} sheet
 * @property {(words: string) => void} say
 * @property {(keys: number[]) => void} sound */

const NO_MUSIC = /^(?!Inline).*Field$|^(?:Directive|Comment|FreeText)$/; // tokens that begin a line of another kind
const NOWHERE = "Not written: put the caret among the notes of a tune, or below its K: line.";
const NONE = "No MIDI keyboard is connected. Connect one: it is heard at once.";
const TRIES = 3; // if the text changes while a note is written

/** Where a note may be written in a line: at a column, or after the token that has it inside, and before a comment; null if the line is no music.
 * @type {(line: Line, column: number) => number | null} */
export function placeIn({ text, tokens }, column) {
  if (BLANK.test(text)) return column;
  if (tokens.length && NO_MUSIC.test(tokens[0].kind)) return null;
  const at = Math.min(column, tokens.find(({ kind }) => kind === "Comment")?.from ?? text.length);
  return tokens.find(({ depth, from, to }) => !depth && from < at && at < to)?.to ?? at;
}

/** A line with a note at a column, and the column after the note. A blank keeps it apart from signs that would change it.
 * @type {(text: string, column: number, note: string) => { put: string, column: number }} */
export function lineWith(text, column, note) {
  const front = text.slice(0, column), rest = text.slice(column);
  const begin = `${front}${/[_^=]$/.test(front) ? " " : ""}${note}`;
  const isJoined = /^[\d/',]/.test(rest) || (!front && rest.startsWith(":"));
  return { put: `${begin}${isJoined ? " " : ""}${rest}`, column: begin.length };
}

export class KeyboardNotes {
  /** @param {Parts} parts
   * @param {MidiKeyboard} keyboard */
  constructor(parts, keyboard = new MidiKeyboard()) {
    this.parts = parts;
    this.keyboard = keyboard;
    /** @type {Promise<void>} */
    this.turn = Promise.resolve(); // ends when the notes before are written
    keyboard.pressed = (keys) => {
      parts.sound(keys);
      this.turn = this.turn.then(() => this.write(keys));
    };
    keyboard.changed = () => this.tell();
    find("keyboard").addEventListener("click", () => void this.toggle());
  }

  /** Hears the keyboard, or does so no more. */
  async toggle() {
    const { keyboard, parts } = this, isOn = keyboard.access !== null;
    button("keyboard").disabled = true; // the browser may ask
    try {
      if (isOn) keyboard.close();
      else await keyboard.open();
      this.tell();
    } catch (error) {
      parts.say(`${/** @type {Error} */ (error).message}.`);
    }
    button("keyboard").disabled = false;
    find("keyboard").setAttribute("aria-pressed", String(keyboard.access !== null));
    show(find("keyboard-length-label"), keyboard.access !== null);
    parts.sheet.area.focus({ preventScroll: true });
  }

  /** Says what is heard. */
  tell() {
    const { keyboard, parts } = this, { names } = keyboard;
    if (!keyboard.access) parts.say("The MIDI keyboard is not heard any more.");
    else parts.say(names.length ? `What is played on ${names.join(", ")} is written at the caret.` : NONE);
  }

  /** Writes keys that were pressed together.
   * @type {(keys: number[]) => Promise<void>} */
  async write(keys) {
    const { parts } = this;
    for (let tries = 1; tries <= TRIES; tries += 1) {
      const { lines } = parts.sheet.text;
      try {
        return await this.writeOnce(keys);
      } catch (error) {
        if (tries === TRIES || parts.sheet.text.lines === lines) return parts.say(`Not written: ${/** @type {Error} */ (error).message}.`);
      }
    }
  }

  /** @type {(keys: number[]) => Promise<void>} */
  async writeOnce(keys) {
    const { parts } = this, { sheet, findings, link, say } = parts, { text } = sheet;
    await link.flush();
    const { line, column } = sheet.caret(), at = findings.tuneAt(line), tune = tuneOf(text.lines, findings.tunes, at);
    if (sheet.area.readOnly || !tune || text.lines.slice(tune.first, line).some((one) => BLANK.test(one))) return say(NOWHERE);
    const lines = await tokenLines(parts, tune.first, line + 1), here = lines[line - tune.first], place = placeIn(here, column);
    const context = place === null ? null : contextAt(tune.header, lines, { line: line - tune.first, column: place });
    if (!context || place === null) return say(NOWHERE);
    const { put, column: end } = lineWith(here.text, place, spelled(keys, context, this.length)), caret = { line, column: end };
    const after = { start: caret, end: caret, direction: "forward" };
    text.change([{ start: line, taken: [here.text], put: [put] }], sheet.selection(), after);
    sheet.refresh(after);
  }

  /** The length of the next note, as it is written. */
  get length() {
    return /** @type {HTMLSelectElement} */ (find("keyboard-length")).value;
  }
}
