// Tries notes of a keyboard without a browser. The folder of the page's scripts is the argument. Each test prints a line, `ok` or `FAILED`,
// with its name. With a second argument it writes keys into the tunes that its input has, with the rows of their tokens, at places there.

import { readFileSync } from "node:fs";
import { pathToFileURL } from "node:url";

import { run, same } from "../testing.mjs";

const [, , folder, answer] = process.argv;
const module = (name) => import(pathToFileURL(`${folder}/${name}.js`));
const { contextAt, shiftIn } = await module("music/note_context");
const { spelled } = await module("music/spelled_notes");
const { lineWith, placeIn } = await module("music/keyboard_notes");
const { MidiKeyboard } = await module("music/midi_keyboard");

if (answer) {
  const { tokensOf } = await module("link/tokens_and_plays");
  for (const { header, lines, rows, line, column, keys } of JSON.parse(readFileSync(0, "utf8"))) {
    const known = lines.map((text, n) => ({ text, tokens: tokensOf(rows[n]) })), place = placeIn(known[line], column);
    const context = place === null ? null : contextAt(header, known, { line, column: place });
    console.log(JSON.stringify(context && { column: place, ...lineWith(lines[line], place, spelled(keys, context, "")), column: place }));
  }
  process.exit(0);
}

/** A line of tokens: the text of each with its kind. In a chord each letter is a note. */
function line(...pieces) {
  let text = "";
  const tokens = [];
  for (const [kind, word] of pieces) {
    tokens.push({ from: text.length, to: text.length + word.length, kind, depth: 0 });
    if (kind === "Chord") {
      for (const { index, 0: part } of word.matchAll(/[_^=]*[A-Ga-g][',]*|-(?=.*\])/g)) {
        tokens.push({ from: text.length + index, to: text.length + index + part.length, kind: part === "-" ? "Tie" : "Note", depth: 1 });
      }
    }
    text += word;
  }
  return { text, tokens };
}

const KINDS = [[/^\|/, "BarLine"], [/^-$/, "Tie"], [/^z/, "Rest"], [/^Z/, "BarRest"], [/^\[[A-Z]:/, "InlineField"], [/^\[/, "Chord"], [/^\{/, "Grace"], [/^"/, "Quoted"], [/^%%/, "Directive"]];
const music = (...words) => line(...words.map((word) => [KINDS.find(([form]) => form.test(word))?.[1] ?? "Note", word]));
const field = (text) => line([text.startsWith("K:") ? "KeyField" : "OtherField", text]);

/** What becomes of keys at the end of lines after `K:` and a value, or after more lines of a header. */
function written(keys, value, ...lines) {
  const header = Array.isArray(value) ? value : [field(`K:${value}`)], all = [...header, ...lines, ...(lines.length ? [] : [music()])];
  return spelled(keys, contextAt([], all, { line: all.length - 1, column: Infinity }), "");
}

const each = (keys, ...more) => keys.map((key) => written([key], ...more)).join(" ");
const octave = [60, 61, 62, 63, 64, 65, 66, 67, 68, 69, 70, 71];

const tests = {
  "the notes of the signature have no accidental, and the others are near it in the circle of fifths"() {
    same(each(octave, "C"), "C ^C D _E E F ^F G ^G A _B B");
    same(each(octave, "D"), "=C C D ^D E =F F G ^G A ^A B");
    same(each(octave, "Eb"), "C _D D E =E F _G G A =A B =B");
    same(each(octave, "Am"), "C ^C D _E E F ^F G ^G A _B B");
    same(each([66, 70, 61], "Gb"), "G B D");
    same(each([60, 67, 62], "C#"), "B, ^^F ^^C");
    same(each([62, 64], "Cb"), "__E F");
    same([each([65, 71], "F#"), each([60, 73], "D =c")], ["E B", "C ^c"]);
  },

  "octaves are written by letters and marks"() {
    same(each([36, 48, 59, 60, 72, 84, 127], "C"), "C,, C, B, C c c' g''''");
    same(each([0, 12], "C"), "C,,,,, C,,,,");
  },

  "accidentals of the bar reach the next note, up to the bar line"() {
    same(each([65, 66, 78], "C", music("^F")), "=F F f");
    same(each([65, 66], "C", music("^F", "|")), "F ^F");
    same(each([65, 66], "G", music("=F", "G")), "F ^F");
    same(each([65, 66], "C", music("[C^F]")), "=F F");
    same(each([65], "C", music("^E")), "F");
    same(each([65], "C", music("^E", "^F")), "=F");
    same(each([65], "C", music(`[${"C".repeat(16)}^F]`)), "F");
    same(spelled([66], contextAt([], [field("K:C"), music("A", "^F")], { line: 1, column: 1 }), ""), "^F");
    same(each([66], "C", music("{^F}")), "^F");
    same(each([66], "C", music("^F"), music()), "F");
    same(each([66], "C", music("^F"), field("P:A"), music()), "^F");
    same(each([66], "C", music("^F"), field("P:1"), music()), "F");
    same(each([66], [field("V:1"), field("V:2"), field("K:C")], music("[V:2]", "^F", "[V:1]"), field("P:A"), music("[V:2]")), "^F");
  },

  "a key of the body begins there, for its voice"() {
    same(each([66, 65], "C", music("^F", "[K:C]")), "^F F");
    same(each([66, 61], "C", music("[K:D]")), "F C");
    same(each([66], [field("V:1"), field("V:2"), field("K:C")], music("[V:2]", "[K:D]", "[V:1]")), "^F");
    same(each([66], [field("V:1"), field("V:2"), field("K:C")], music("[V:2]", "^F", "[V:1]")), "^F");
    same(each([66], [field("V:1"), field("V:2"), field("K:C")], music("[V:2]", "^F", "[V:1]", "|", "[V:2]")), "F");
    same(each([66], "D", music("[K:HP]")), "^F");
    same(each([66], "D", music("[K:clef=bass]")), "F");
  },

  "a tied note keeps its alteration over the bar line"() {
    same(each([66, 78, 65], "C", music("^F", "-", "|")), "F ^f =F");
    same(each([66], "C", music("^F", "-", "|", "z")), "^F");
    same(each([66, 60], "C", music("[^F-^C]", "|")), "F C");
    same(each([61], "C", music("[^F-^C]", "|")), "^C");
    same(each([66, 61], "C", music("[^F^C]", "-", "Z", "|")), "F C");
    same(each([66], "C", line(["Note", "^F"], ["Blank", " "], ["Tie", "-"], ["BarLine", "|"])), "^F");
    same(each([65], "C", music("[^F-=F]")), "F");
  },

  "accidentals reach as far as the directive says"() {
    const reach = (word) => [line(["Directive", `%%propagate-accidentals ${word}`]), field("K:C")];
    same([each([66, 78], reach("octave"), music("^F")), each([66, 78], reach("not"), music("^F"))], ["F ^f", "^F ^f"]);
    const file = contextAt(["%%propagate-accidentals not % x", "%%propagate-accidentals none"], [field("K:C"), music("^F")], { line: 1, column: 2 });
    same(spelled([66, 78], file, ""), "[^F^f]");
    same(each([78], "C", music("^F"), line(["Directive", "%%propagate-accidentals octave"]), music()), "f");
  },

  "clefs and properties of the voice shift what is written"() {
    same(each([61, 66], "D clef=treble-8"), "c f");
    same(each([60], "C octave=1"), "C,");
    same(each([60], "C transpose=-2"), "D");
    same(each([60], [field("V:1 bass+8 octave=-1 transpose=2"), field("K:C transpose=5")]), "_B,");
    same(each([60], [field("V:1 octave=-1"), field("K:C octave=1 transpose=12")]), "C");
    same(each([60], [field("V:1 octave=1"), field("V:2"), field("K:C")]), "C,");
    same(each([60], [field("V:1"), field("V:2 octave=x"), field("K:C")], music("[V:1 octave=1]", "[V:2]")), "C");
    same([shiftIn(["clef=\"treble-8\""]).clef, shiftIn(["alto+8", "clef=bass"]).clef, shiftIn(["treble"]).clef, shiftIn(["octave=1.5"])], [-12, 0, null, null]);
  },

  "keys that are pressed together are a chord, whose accidentals reach its later notes"() {
    same(written([67, 60, 64], "C"), "[CEG]");
    same(written([66, 78], "C"), "[^Ff]");
    same(written([66, 77], "C"), "[^F=f]");
    same(written([65, 66], "C"), "[F^F]");
    same(written([60, 60], "C"), "C");
    same(written([66, 67, 68, 69, 70, 71, 72, 73, 74, 75, 76, 77, 78, 79, 80, 81, 82], "F#").match(/[A-Ga-g]/g).length, 16);
    same(spelled([60, 64], contextAt([], [field("K:C"), music()], { line: 1, column: 0 }), "3/2"), "[CE]3/2");
  },

  "before the K: there is no place for a note"() {
    same(contextAt([], [field("X:1"), field("T:a")], { line: 1, column: 3 }), null);
  },

  "a note is written after the token that has the caret, and before a comment"() {
    const tune = line(["Note", "^F2"], ["Chord", "[CE]"], ["Blank", " "], ["Comment", "% no"]);
    same([0, 1, 3, 4, 7, 8, 10].map((column) => placeIn(tune, column)), [0, 3, 3, 7, 7, 8, 8]);
    same([placeIn(field("T:a"), 3), placeIn(line(["Directive", "%%MIDI program 3"]), 0), placeIn({ text: "  ", tokens: [] }, 1)], [null, null, 1]);
    same(placeIn(music("[K:G]", "A"), 5), 5);
  },

  "signs beside a note change it no more than it was pressed"() {
    same(lineWith("CE", 1, "D"), { put: "CDE", column: 2 });
    same([lineWith("C^", 2, "D").put, lineWith("|2", 1, "D").put, lineWith(":|", 0, "D").put, lineWith("C:|", 1, "D").put], ["C^ D", "|D 2", "D :|", "CD:|"]);
  },

  async "a chord is the keys that come soon after the first, and a released key is none"() {
    const heard = [], timers = [], { setTimeout } = globalThis;
    globalThis.setTimeout = (act, time) => timers.push([act, time]);
    const input = { name: "Keys", state: "connected", onmidimessage: null }, access = { inputs: new Map([["a", input]]), onstatechange: null };
    const keyboard = new MidiKeyboard({ requestMIDIAccess: async () => access });
    keyboard.pressed = (keys) => heard.push(keys);
    await keyboard.open();
    for (const data of [[0x90, 60, 80], [0x91, 64, 1], [0x90, 60, 0], [0x80, 64, 64], [0xb0, 7, 100]]) input.onmidimessage({ data: Uint8Array.from(data) });
    same([timers.length, timers[0][1]], [1, 50]);
    timers[0][0]();
    input.onmidimessage({ data: Uint8Array.of(0x9f, 61, 127) });
    timers[1][0]();
    globalThis.setTimeout = setTimeout;
    same([heard, keyboard.names], [[[60, 64], [61]], ["Keys"]]);
  },

  async "a keyboard that is connected later is heard, and after the end none"() {
    const access = { inputs: new Map(), onstatechange: null }, keyboard = new MidiKeyboard({ requestMIDIAccess: async () => access });
    let changes = 0;
    keyboard.changed = () => (changes += 1);
    await keyboard.open();
    same(keyboard.names, []);
    const input = { name: null, state: "connected", onmidimessage: null };
    access.inputs.set("a", input);
    access.inputs.set("b", { name: "Gone", state: "disconnected", onmidimessage: null });
    access.onstatechange();
    same([keyboard.names, changes, typeof input.onmidimessage], [["a MIDI keyboard"], 1, "function"]);
    keyboard.close();
    same([keyboard.names, input.onmidimessage, access.onstatechange], [[], null, null]);
  },

  async "a browser without Web MIDI, or one that refuses, says so"() {
    const why = async (machine) => new MidiKeyboard(machine).open().catch(({ message }) => message);
    same([(await why({})).slice(0, 29), (await why({ requestMIDIAccess: () => Promise.reject(new Error("x")) })).slice(0, 31)], ["This browser has no Web MIDI.", "The browser does not let this p"]);
  },
};

await run(tests);
process.exit(0);
