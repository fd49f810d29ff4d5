// The palette of signs, for people who do not know ABC yet: a click writes a sign at the caret, and lets it be heard.

import { find } from "../base/elements.js";
import { soundNote } from "../music/synth_sounds.js";

/** A sign: its text, what it means, and what it sounds like: keys of MIDI, those of a chord with + between, each with its length in beats
 * after a colon. A sound of another loudness ends in a velocity, after @.
 * @typedef {[text: string, words: string, sound: string]} Sign */
/** @type {[group: string, signs: Sign[]][]} */
export const SIGNS = [
  ["Notes", [
    ["C D E F", "from middle C upwards; G A B are next", "60:1 62:1 64:1 65:1"],
    ["c d e f", "an octave higher", "72:1 74:1 76:1 77:1"],
    ["C,", "an octave lower than C", "48:2"],
    ["c'", "an octave higher than c", "84:2"],
    ["^F", "F sharp", "66:2"],
    ["_B", "B flat", "70:2"],
    ["=F", "F natural, in spite of the key", "65:2"],
    ["z", "a rest", "z:1"],
  ]],
  ["Lengths", [
    ["A2", "twice as long", "69:2"],
    ["A/2", "half as long", "69:0.5"],
    ["A>B", "the first longer, the second shorter", "69:1.5 71:0.5"],
    ["(3ABc", "a triplet: three in the time of two", "69:0.667 71:0.667 72:0.667"],
    ["A2-A", "a tie: one long note", "69:3"],
  ]],
  ["Together", [
    ["[CEG]", "a chord", "60+64+67:2"],
    ["\"Am\"", "the name of a chord; it is not played", ""],
    ["(AB)", "a slur; it is not played", ""],
    ["{g}A", "a grace note; it is not played", "69:1"],
  ]],
  ["Bars", [
    ["|", "a bar line", ""],
    ["|: A B :|", "a repeat", "69:1 71:1 69:1 71:1"],
    ["|: A [1 B :| [2 c |", "two endings", "69:1 71:1 69:1 72:1"],
    ["|]", "the end", ""],
  ]],
  ["Loudness", [
    ["!p! A", "soft, from here on", "69:1@60"],
    ["!f! A", "loud, from here on", "69:1@105"],
  ]],
];
const BEAT = 0.3; // seconds

/** The notes of a sound: key, velocity, and the beats at which it begins and ends.
 * @type {(sound: string) => { key: number, velocity: number, on: number, off: number }[]} */
export function notesOf(sound) {
  let on = 0;
  return sound.split(" ").filter(Boolean).flatMap((part) => {
    const [keys, length] = part.split(":"), [beats, velocity = "80"] = length.split("@"), off = on + Number(beats);
    const notes = keys === "z" ? [] : keys.split("+").map((key) => ({ key: Number(key), velocity: Number(velocity), on, off }));
    on = off;
    return notes;
  });
}

export class Signs {
  /** @param {import("./text_sheet.js").Sheet} sheet
   * @param {HTMLDialogElement} dialog */
  constructor(sheet, dialog) {
    this.sheet = sheet;
    this.dialog = dialog;
    /** @type {AudioContext | null} */
    this.audio = null;
    find("signs-list").append(...SIGNS.map(([group, signs]) => this.group(group, signs)));
    find("signs-open").addEventListener("click", () => this.toggle());
    find("signs-close").addEventListener("click", () => this.toggle());
    dialog.addEventListener("keydown", ({ key }) => key === "Escape" && this.toggle());
  }

  /** Opens the palette, or closes it. */
  toggle() {
    const { dialog, sheet } = this, selection = sheet.selection();
    find("signs-open").setAttribute("aria-expanded", String(!dialog.open));
    if (dialog.open) {
      dialog.close();
      sheet.refresh(selection); // some browsers lose the caret of a text area
      sheet.area.focus({ preventScroll: true });
    } else {
      dialog.show();
      find("signs-list").querySelector("button")?.focus();
    }
  }

  /** @type {(name: string, signs: Sign[]) => HTMLElement} */
  group(name, signs) {
    const group = document.createElement("section");
    group.append(Object.assign(document.createElement("h3"), { textContent: name }), ...signs.map((sign) => this.button(sign)));
    return group;
  }

  /** @type {(sign: Sign) => HTMLElement} */
  button([text, words, sound]) {
    const button = Object.assign(document.createElement("button"), { type: "button" });
    button.append(Object.assign(document.createElement("code"), { textContent: text }), Object.assign(document.createElement("span"), { textContent: words }));
    button.addEventListener("click", () => {
      this.write(text);
      this.hear(sound);
    });
    return button;
  }

  /** Writes words at the caret, in a step of its own, with a blank after what is there.
   * @type {(words: string) => void} */
  write(words) {
    const { sheet } = this, { line, column } = sheet.caret(), text = sheet.text.lines[line];
    if (sheet.area.readOnly) return;
    const put = `${/\S$/.test(text.slice(0, column)) ? " " : ""}${words}`, at = { line, column: column + put.length };
    const after = { start: at, end: at, direction: "forward" };
    sheet.text.change([{ start: line, taken: [text], put: [text.slice(0, column) + put + text.slice(column)] }], sheet.selection(), after);
    sheet.refresh(after);
  }

  /** @type {(sound: string) => void} */
  hear(sound) {
    const notes = notesOf(sound), audio = (this.audio ??= new AudioContext());
    void audio.resume();
    const begin = audio.currentTime + 0.02;
    for (const { key, velocity, on, off } of notes) {
      soundNote(audio, { start: 0, end: 0, key, velocity, program: 0, drum: false, voice: 0 }, begin + on * BEAT, begin + off * BEAT, audio.destination);
    }
  }
}
