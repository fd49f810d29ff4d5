// Tries without a browser what the page knows of music: the folder that has its scripts is the argument. Each test is reported by a
// line, `ok` or `FAILED`, with its name. All wanted values are worked out by hand: a quarter note has 480 ticks, and C is 60. The plays
// of the tunes are in plays.txt; another program than this one found them.

import { readFileSync } from "node:fs";
import { pathToFileURL } from "node:url";

import { run, same } from "../testing.mjs";

const folder = process.argv[2];
const script = (name) => import(pathToFileURL(`${folder}/${name}.js`));
const { Places } = await script("music/note_places");
const { TuneWords } = await script("music/tune_text");
const { Grid, beatOf } = await script("music/bars_and_beats");
const { lanesOf } = await script("music/unison_lanes");
const { Shades } = await script("music/voice_colours");
const { scoreOf } = await script("music/midi_file");

/** The score of a file: each track has notes from a tick to a tick, with a key. A track without notes is no voice. */
function scoreWith(...tracks) {
  let voices = 0;
  const score = { division: 480, notes: [], tracks: [{ voice: null }], meters: [], bars: [0] };
  for (const track of tracks) {
    const voice = track.length ? voices++ : null;
    score.tracks.push({ voice });
    for (const [start, end, key] of track) score.notes.push({ start, end, key, voice });
  }
  score.notes.sort((a, b) => a.start - b.start || a.key - b.key);
  score.end = Math.max(...score.notes.map(({ end }) => end));
  score.bars = [0, score.end];
  return { ...score, voices };
}

/** The tunes of plays.txt by their names: the lines of each, and what it plays, with lines and columns from 0. */
const TUNES = new Map(readFileSync(new URL("plays.txt", import.meta.url), "utf8").split(/^tune /m).slice(1).map((block) => {
  const [name, ...lines] = block.trimEnd().split("\n"), rows = lines.splice(lines.indexOf("play")).slice(1);
  const tracks = [{ entries: [] }];
  for (const row of rows) {
    const [track, on, off, kind, key, velocity, joined, line, from, to] = row.split(" ").map((word) => (/^\d+$/.test(word) ? Number(word) : word === "-" ? null : word));
    while (tracks.length <= track) tracks.push({ entries: [] });
    const entry = { on, off, kind: kind[0].toUpperCase() + kind.slice(1), key, velocity, joined: joined === 1 };
    tracks[track].entries.push({ ...entry, line: line - 1, from: from - 1, to: to - 1 });
  }
  return [name, { lines, play: { number: 1, tracks } }];
}));

/** The places of a tune of plays.txt, in a file of these tracks; `more` is what else the score has. */
function tune(name, tracks, more = {}) {
  const { lines, play } = TUNES.get(name);
  return new Places(play, new TuneWords(lines, 0, lines.length), { ...scoreWith(...tracks), ...more });
}

/** What is known, voice by voice: the text of each moment that is played, the tick, the keys of its notes. */
function known(name, ...tracks) {
  const places = tune(name, tracks);
  return places.voices.map(({ moments }) => {
    return moments.map((moment) => [places.words.at(moment), moment.start, ...moment.tones.flatMap(({ note }) => note?.key ?? [])]);
  });
}

/** A meter from the begin of a score on. */
const inMeter = (over, under) => ({ meters: [{ tick: 0, over, under }] });

/** The ticks of notes that follow each other, each a quarter long. */
const quarters = (...keys) => keys.map((key, n) => [480 * n, 480 * n + 480, key]);

/** The bars: the tick and the number of each, with `+` if it is a pickup. */
const barsOf = (places) => places.grid.bars.map(({ tick, number, offset }) => `${tick}:${number}${offset ? "+" : ""}`);

/** The contrast of two colours #rrggbb, by WCAG 2. */
function contrast(...colours) {
  const light = colours.map((colour) => {
    const parts = colour.match(/[0-9a-f]{2}/gi).map((part) => parseInt(part, 16) / 255);
    const [red, green, blue] = parts.map((part) => (part <= 0.03928 ? part / 12.92 : ((part + 0.055) / 1.055) ** 2.4));
    return 0.2126 * red + 0.7152 * green + 0.0722 * blue + 0.05;
  });
  return Math.max(...light) / Math.min(...light);
}

const tests = {
  "notes and rests have their places"() {
    same(known("notes and rests", [[0, 480, 60], [480, 960, 62], [1440, 1920, 64]]), [[["C", 0, 60], ["D", 480, 62], ["z", 960], ["E", 1440, 64]]]);
  },

  "a chord has a place for each of its notes"() {
    const places = tune("chords", [[[0, 960, 60], [0, 960, 64], [0, 960, 67], [960, 1920, 62], [960, 1440, 65]]]);
    same(places.voices[0].moments.map(({ tones }) => tones.map(({ entry, note }) => [entry.from, entry.to, note.key])), [
      [[1, 2, 60], [2, 3, 64], [3, 4, 67]], [[8, 9, 62], [10, 11, 65]], [[13, 14, 62]],
    ]);
    same([...places.notesUnder(3, 2)].map(({ key }) => key), [64]);
    const tokens = [{ from: 0, to: 6, kind: "Chord", depth: 0 }, { from: 1, to: 2, kind: "Note", depth: 1 }];
    for (const column of [0, 5, 6]) same([...places.notesUnder(3, column, tokens)].map(({ key }) => key), [60, 64, 67]);
    same(places.under(3, 0), []);
  },

  "a tie over a bar is one note with two places"() {
    const places = tune("tie", [[[0, 480, 60], [480, 1440, 66], [1440, 1920, 65]]]);
    const [, tied] = places.score.notes;
    same(places.tonesOf(tied).map(({ entry, start }) => [entry.from, start]), [[2, 480], [5, 960]]);
    same(places.at(1000).map(({ from }) => from), [5]);
  },

  "a note shorter than a tick is not in the file, and a silent one has a place"() {
    const places = tune("silent and short", [[[0, 960, 60], [1440, 1920, 62]]]);
    same(places.voices[0].until, Infinity);
    same(places.voices[0].moments.map(({ from, tones }) => [from, ...tones.map(({ note }) => note?.start ?? null)]), [[0, null], [6, 0], [9, 0], [11, null], [18, 1440]]);
  },

  "repeats with endings are unrolled"() {
    const wanted = [["C", 0, 60], ["D", 480, 62], ["E", 960, 64], ["C", 1440, 60], ["D", 1920, 62], ["F", 2400, 65], ["G", 2880, 67]];
    same(known("endings", quarters(60, 62, 64, 60, 62, 65, 67)), [wanted]);
  },

  "endings that sound the same have their own places"() {
    same(tune("same endings", [quarters(60, 62, 60, 62)]).voices[0].moments.map(({ from }) => from), [2, 6, 2, 11]);
  },

  "parts are played in their order"() {
    same(known("parts", quarters(62, 60, 62)), [[["D", 0, 62], ["C", 480, 60], ["D", 960, 62]]]);
  },

  "two voices, each with its track"() {
    const tracks = [[[0, 960, 72], [960, 1440, 74]], [[0, 480, 60], [480, 1440, 62]]];
    same(known("voices", ...tracks), [[["c2", 0, 72], ["d", 960, 74]], [["C", 0, 60], ["D2", 480, 62]]]);
    const places = tune("voices", tracks);
    same([places.nameOf(0), places.nameOf(1), places.nameOf(2)], ["high", "low", ""]);
    same(places.at(500).map(({ line, from }) => [line, from]), [[6, 0], [8, 2]]);
  },

  "voices in brackets, and one of rests alone"() {
    same(known("voices in brackets", quarters(60, 62, 64), []), [[["C", 0, 60], ["D", 480, 62], ["E", 960, 64]], [["z2", 0], ["z", 960]]]);
    same(tune("voices in brackets", [quarters(60, 62, 64), []]).nameOf(0), "Air");
    same(tune("first voice", [quarters(60, 62), []]).nameOf(0), "One");
  },

  "a note is spelled as it is written"() {
    const { lines } = TUNES.get("spelling"), words = new TuneWords(lines, 0, lines.length);
    const place = (line, from, to) => ({ line, from, to });
    same([words.spelling(place(3, 0, 1), 63), words.spelling(place(3, 2, 4), 66), words.spelling(place(3, 8, 10), 61)], [
      { letter: "E", alteration: -1 }, { letter: "F", alteration: 1 }, { letter: "D", alteration: -1 },
    ]);
    same(words.spelling(place(5, 0, 1), 58), null);
  },

  "what comes after a note that does not fit has no place"() {
    same(known("scale", quarters(60, 62, 63, 65)), [[["C", 0, 60], ["D", 480, 62]]]);
  },

  "a note more in the file, or one less, ends what is known"() {
    same(known("no space", [[0, 960, 60], [960, 1440, 62], [1440, 1920, 64], [1920, 2400, 64]]), [[["C2", 0, 60], ["D", 960, 62], ["E", 1440, 64]]]);
    same(tune("scale", [quarters(60, 62, 64, 65, 67)]).grid, null);
    same(known("scale", quarters(60, 62, 64)), [[["C", 0, 60], ["D", 480, 62], ["E", 960, 64]]]);
  },

  "a voice that does not fit leaves the others alone"() {
    same(known("voices", [[0, 960, 72], [960, 1440, 74]], quarters(60, 66)), [[["c2", 0, 72], ["d", 960, 74]], [["C", 0, 60]]]);
  },

  "a play that is that of another file marks nothing"() {
    for (const tracks of [[quarters(62, 60)], [quarters(60, 62), quarters(60, 62)]]) {
      const places = tune("scale", tracks);
      same([places.at(0), places.under(3, 0), places.tickFrom(3, 0), places.rangeOf(0, 9)], [[], [], null, null]);
    }
    same(new Places(null, new TuneWords([], 0, 0), scoreWith(quarters(60))).at(0), []);
  },

  "a line that was removed has no places"() {
    const { lines, play } = TUNES.get("lines"), [conductor, { entries }] = play.tracks;
    const moved = entries.map((entry) => ({ ...entry, line: entry.line === 4 ? -1 : entry.line }));
    const score = scoreWith(quarters(60, 62, 64, 65, 62, 64, 67));
    const places = new Places({ number: 1, tracks: [conductor, { entries: moved }] }, new TuneWords(lines, 0, lines.length), score);
    same([places.at(500), places.at(1000).map(({ line }) => line), places.inLine(-1)], [[], [5], []]);
  },

  "the caret is at a note that it is in, else at the one before it"() {
    const places = tune("no space", [[[0, 960, 60], [960, 1440, 62], [1440, 1920, 64]]]);
    same([0, 1, 2, 3, 4, 5, 6].map((column) => places.under(3, column).map(({ from }) => from)), [[0], [0], [2], [2], [4], [4], []]);
  },

  "from the caret: the next note of its voice, where it is played first"() {
    const places = tune("from the caret", [quarters(60, 62, 64, 65, 60, 62, 64, 65), quarters(64, 65, 67, 69, 64, 65, 67, 69)]);
    same([[0, 0], [6, 0], [6, 4], [6, 7], [8, 7], [10, 1], [12, 4]].map(([line, column]) => places.tickFrom(line, column)), [0, 0, 480, 960, 960, 960, null]);
  },

  "lines are looped where they are played first"() {
    const places = tune("lines", [quarters(60, 62, 64, 65, 62, 64, 67)]);
    const at = (line, column) => ({ line, column });
    same([places.rangeBetween(at(3, 0), at(9, 0)), places.rangeBetween(at(0, 0), at(3, 0))], [[0, 3360], null]);
    same([places.rangeOf(3, 3), places.rangeOf(4, 4), places.rangeOf(5, 5), places.rangeOf(3, 5), places.rangeOf(0, 2)], [[0, 480], [480, 960], [960, 1920], [0, 3360], null]);
  },

  "bars: a pickup is not counted, and the bar that a repeat cuts is one"() {
    const notes = [...quarters(60, 62, 64, 65, 67, 69, 62, 64, 65, 67, 69, 71), [5760, 7200, 72]];
    same(barsOf(tune("pickups", [notes], inMeter(3, 4))), ["0:0+", "480:1", "1920:2", "2880:1", "4320:2", "5280:2+", "5760:3"]);
  },

  "bars: a second ending has the numbers of the first"() {
    const { bars } = tune("bars of endings", [quarters(60, 62, 64, 60, 65, 67, 69)], inMeter(1, 4)).grid;
    same(bars.map(({ tick, number, pass }) => [tick, number, pass]), [[0, 1, 1], [480, 2, 1], [960, 3, 1], [1440, 1, 2], [1920, 2, 2], [2400, 3, 2], [2880, 4, 1]]);
  },

  "bars: a short ending is no pickup"() {
    const notes = [[0, 480, 60], [480, 1920, 62], [1920, 2880, 64], [2880, 3360, 60], [3360, 4800, 62], [4800, 5760, 65], [5760, 6240, 67]];
    same(barsOf(tune("short ending", [notes], inMeter(3, 4))), ["0:0+", "480:1", "1920:2", "2880:0+", "3360:1", "4800:2", "5760:2+"]);
  },

  "bars: a repeated bar begins anew"() {
    same(barsOf(tune("repeated bar", [quarters(60, 60)], inMeter(1, 4))), ["0:1", "480:1"]);
  },

  "bars: parts have the numbers of the text"() {
    same(barsOf(tune("bars of parts", [quarters(64, 60, 62, 64, 65)], inMeter(1, 4))), ["0:3", "480:1", "960:2", "1440:3", "1920:4"]);
  },

  "bars of a file whose play is not known go by the meters"() {
    const score = { ...scoreWith(quarters(60, 62)), ...inMeter(1, 4), bars: [0, 480, 960] };
    same(barsOf({ grid: Grid.ofMeters(score) }), ["0:1", "480:2"]);
  },

  "beats, moments and steps"() {
    const notes = [[0, 240, 60], [240, 480, 62], [480, 720, 64], [720, 960, 65], [960, 1200, 67], [1200, 1440, 69], [1440, 1680, 71], [1680, 2400, 72]];
    const jig = tune("jig", [notes], inMeter(6, 8)).grid;
    same([beatOf({ over: 6, under: 8 }, 480), beatOf({ over: 3, under: 8 }, 480), beatOf({ over: 2, under: 2 }, 480)], [720, 240, 960]);
    same([jig.beatsOf(0), jig.beatsOf(1), jig.beatsOf(2)], [[0], [240, 960], [1680]]);
    same([0, 240, 1000, 1700].map((tick) => jig.momentOf(tick)), [
      { bar: 0, beat: 2, pass: 1 }, { bar: 1, beat: 1, pass: 1 }, { bar: 1, beat: 2, pass: 1 }, { bar: 2, beat: 1, pass: 1 },
    ]);
    same([jig.after(0, false), jig.after(240, false), jig.after(240, true), jig.after(2000, true)], [240, 960, 1680, 2400]);
    same([jig.before(1700, false), jig.before(1680, false), jig.before(1680, true), jig.before(0, true)], [1680, 960, 240, 0]);
    same([jig.clicksIn(0, 1680), jig.clicksIn(241, 961)], [
      [{ at: 0, isFirst: false }, { at: 240, isFirst: true }, { at: 960, isFirst: false }], [{ at: 960, isFirst: false }],
    ]);
    const tempos = [{ tick: 0, second: 0, each: 0.5 / 480 }, { tick: 960, second: 1, each: 0.25 / 480 }];
    same([0, 240, 960].map((tick) => Math.round(jig.tempoAt(tick, { tempos }))), [80, 80, 160]);
    same([jig.rangeOf(1, 1), jig.rangeOf(1, 2), jig.rangeOf(3, 3), jig.last, jig.count], [[240, 1680], [240, 2400], null, 2, 2]);
  },

  "a count-in is a bar, and the beats before a pickup"() {
    const waltz = tune("waltz", [[[0, 480, 60], [480, 1920, 62]]], inMeter(3, 4)).grid;
    const clicks = (tick) => waltz.countIn(tick).clicks.map(({ at, isFirst }) => `${at}${isFirst ? "!" : ""}`);
    same([clicks(480), waltz.countIn(480).length], [["0!", "480", "960"], 1440]);
    same([clicks(0), waltz.countIn(0).length], [["0!", "480", "960", "1440!", "1920"], 2400]);
    same(new Grid([], 0, 480).countIn(0).length, 1920);
  },

  "a beat is that of the tempo, if the bar is some of those"() {
    const reel = tune("reel", [quarters(60, 62, 64, 65, 67, 69, 71, 72)], inMeter(4, 4)).grid;
    const tempos = [{ tick: 0, second: 0, each: 60 / 96 / 960 }, { tick: 1920, second: 1.25, each: 1 / 480 }];
    same([0, 960, 1920].map((tick) => Math.round(reel.tempoAt(tick, { tempos }))), [96, 96, 60]);
    same([reel.beatsOf(0), reel.beatsOf(1)], [[0, 960], [1920, 2400, 2880, 3360]]);
    same(reel.countIn(0).clicks.map(({ at }) => at), [0, 960]);
    same([960, 480, 720, 1920, 1440].map((told) => beatOf({ over: 4, under: 4 }, 480, told)), [960, 480, 480, 1920, 480]);
    same([720, 240, 480, 960].map((told) => beatOf({ over: 6, under: 8 }, 480, told)), [720, 240, 720, 720]);
    same([beatOf(null, 480, 960), beatOf(null, 480, null)], [960, 480]);
  },

  "voices on one key share its row"() {
    const notes = [[0, 960, 60, 0], [0, 480, 60, 1], [0, 480, 64, 1], [480, 960, 60, 1], [960, 1440, 60, 1], [960, 1440, 64, 0]].map(([start, end, key, voice]) => ({ start, end, key, voice }));
    const lanes = lanesOf(notes);
    same(notes.map((note) => lanes.get(note) ?? null), [{ lane: 0, of: 2 }, { lane: 1, of: 2 }, null, { lane: 1, of: 2 }, null, null]);
  },

  "each voice differs from paper and slate at each loudness"() {
    for (const grounds of [["#fffdf8", "#f3eee4", "#dcebfb"], ["#1c1f24", "#22262c", "#1f3147"]]) {
      const shades = new Shades(grounds);
      const colours = Array.from({ length: 15 }, (_, voice) => [1, 30, 80, 127].map((velocity) => shades.of(voice, velocity)));
      for (const ground of grounds) for (const colour of colours.flat()) if (contrast(colour, ground) < 3) throw new Error(`${colour} on ${ground}`);
      same(new Set(colours.map((some) => some[3])).size, 15);
      for (const [soft, , , loud] of colours) if (contrast(loud, grounds[0]) < 1.5 * contrast(soft, grounds[0])) throw new Error(`${soft} ${loud}`);
    }
  },

  "a file has a track for each voice, also for one without notes"() {
    const chunk = (bytes) => `4D54726B ${(bytes.replace(/ /g, "").length / 2).toString(16).padStart(8, "0")} ${bytes}`;
    const text = `4D546864 00000006 0001 0003 01E0 ${chunk("00 FF2F00")} ${chunk("8360 FF2F00")} ${chunk("00 903C50 8360 803C40 00 FF2F00")}`;
    const score = scoreOf(Uint8Array.from(Buffer.from(text.replace(/ /g, ""), "hex")).buffer);
    same([score.tracks, score.notes.map(({ voice, key }) => [voice, key])], [[{ voice: null }, { voice: null }, { voice: 0 }], [[0, 60]]]);
  },
};

await run(tests);
