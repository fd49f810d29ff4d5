// The places of a tune's notes in its text: each entry of the tune's play beside the note of its file. If a play and a file differ, as
// when one of them is older, nothing has a place from the first difference on.

import { countBefore } from "../base/binary_search.js";
import { Grid, playedBars } from "./bars_and_beats.js";

/** @typedef {import("./midi_file.js").Score} Score
 * @typedef {import("./midi_file.js").Note} Note
 * @typedef {import("../link/tokens_and_plays.js").Entry} Entry
 * @typedef {import("./tune_text.js").TuneWords} TuneWords
 * @typedef {{ from: number, to: number }} Span of columns
 * A tone of the text, and the note of the score that it sounds in; null if it is silent.
 * @typedef {{ entry: Entry, note: Note | null }} Tone
 * What a voice plays from a tick to another: a note, a chord or a rest.
 * @typedef {{ line: number, from: number, to: number, start: number, end: number, track: number, tones: Tone[] }} Moment
 * What is known of a voice: from which tick on play and file differ, and what it plays up to there.
 * @typedef {{ until: number, moments: Moment[], entries: Entry[] }} KnownVoice */

export class Places {
  /** @param {import("../link/tokens_and_plays.js").Play | null} play
   * @param {TuneWords} words
   * @param {Score} score */
  constructor(play, words, score) {
    this.words = words;
    this.score = score;
    const tracks = play?.tracks ?? [], isSame = tracks.length === score.tracks.length;
    /** @type {Map<Note, Moment[]>} */
    this.sounds = new Map(); // by note of the score: where its tones are
    /** @type {KnownVoice[]} */
    this.voices = isSame ? tracks.slice(1).map(({ entries }, n) => this.align(entries, n)) : [];
    this.grid = this.gridOf();
  }

  /** Compares what a voice plays with the notes of its track. A tone sounds in a note that begins with it, or with the tones that it is
   * joined with.
   * @type {(entries: Entry[], track: number) => KnownVoice} */
  align(entries, track) {
    const moments = momentsOf(entries, track), waiting = this.notesOf(this.score.tracks[track + 1].voice);
    /** @type {Map<number, { on: number, note: Note | null }>} */
    const begun = new Map(); // by key: when the last sound began, and its note
    let until = Infinity;
    for (const { start, tones } of moments) {
      for (const tone of tones) {
        const { on, off, key, joined } = tone.entry;
        if (key === null) continue;
        if (!joined) begun.set(key, { on, note: null });
        const sound = begun.get(key);
        if (sound && on < off) sound.note ??= waiting.get(`${sound.on} ${key}`)?.shift() ?? null;
        tone.note = sound?.note ?? null;
        if (!tone.note && start < off) until = Math.min(until, start);
      }
    }
    until = [...waiting.values()].flat().reduce((least, { start }) => Math.min(least, start), until);
    const known = moments.filter(({ line, end }) => line >= 0 && end <= until);
    for (const moment of known) for (const { note } of moment.tones) if (note) this.sounds.set(note, [...(this.sounds.get(note) ?? []), moment]);
    return { until, moments: known, entries };
  }

  /** The notes of a voice by start and key.
   * @type {(voice: number | null) => Map<string, Note[]>} */
  notesOf(voice) {
    const found = new Map();
    for (const note of this.score.notes) {
      const name = `${note.start} ${note.key}`;
      if (note.voice === voice) found.set(name, [...(found.get(name) ?? []), note]);
    }
    return found;
  }

  /** What is played in a line, by its columns.
   * @type {(line: number) => Moment[]} */
  inLine(line) {
    const own = this.voices.flatMap(({ moments }) => moments.filter((one) => one.line === line));
    return own.sort((a, b) => a.from - b.from || a.start - b.start);
  }

  /** The bars of the first voice that is known from beginning to end, null if there is none.
   * @type {() => Grid | null} */
  gridOf() {
    const known = this.voices.find(({ until, moments }) => until === Infinity && moments.length);
    if (!known) return null;
    const bars = playedBars(known.entries, this.words, this.score.meters);
    return Grid.ofBars(bars, this.score, known.moments[known.moments.length - 1].end);
  }

  /** The name of a voice of the score, "" without one.
   * @type {(voice: number) => string} */
  nameOf(voice) {
    const track = this.score.tracks.findIndex((one) => one.voice === voice), first = this.voices[track - 1]?.moments[0];
    return first ? this.words.voiceAt(first) : "";
  }

  /** What is played at a tick.
   * @type {(tick: number) => Moment[]} */
  at(tick) {
    const last = this.voices.flatMap(({ moments }) => moments[countBefore(moments, ({ start }) => start <= tick) - 1] ?? []);
    return last.filter(({ end }) => tick < end);
  }

  /** What is at a place of the text, one for each time that it is played: in the token that the place is in, else in the one that ends
   * there. `tokens` are those of the line, null if they are not known.
   * @type {(line: number, column: number, tokens?: import("../link/tokens_and_plays.js").Token[] | null) => Moment[]} */
  under(line, column, tokens = null) {
    const own = this.inLine(line);
    /** @type {Span[]} */
    const spans = tokens?.filter(({ depth }) => depth === 0) ?? own;
    const within = (/** @type {Span[]} */ those) => own.filter((one) => those.some(({ from, to }) => from <= one.from && one.to <= to));
    const found = within(spans.filter(({ from, to }) => from <= column && column < to));
    return found.length ? found : within(spans.filter(({ to }) => to === column));
  }

  /** The notes of the score at a place: in a chord those of the tone at the place, if there is one.
   * @type {(line: number, column: number, tokens?: import("../link/tokens_and_plays.js").Token[] | null) => Set<Note>} */
  notesUnder(line, column, tokens = null) {
    const tones = this.under(line, column, tokens).flatMap((moment) => moment.tones);
    const own = tones.filter(({ entry }) => entry.from <= column && column < entry.to);
    return new Set((own.length ? own : tones).flatMap(({ note }) => note ?? []));
  }

  /** The tick at which what is at a place, else what follows it in its voice, is played first; null if that is not known.
   * @type {(line: number, column: number, tokens?: import("../link/tokens_and_plays.js").Token[] | null) => number | null} */
  tickFrom(line, column, tokens = null) {
    const own = this.inLine(line);
    const moment = this.under(line, column, tokens)[0] ?? own.find(({ to }) => to > column);
    if (moment) return moment.start;
    const last = own.at(-1);
    if (last) return this.voices[last.track].moments.find((one) => one.line > line)?.start ?? null;
    const later = this.voices.flatMap(({ moments }) => moments.filter((one) => one.line > line));
    return this.inLine(later.reduce((least, one) => Math.min(least, one.line), Infinity))[0]?.start ?? null;
  }

  /** From which tick to which the lines from..to are played first, without others between; null if that is not known.
   * @type {(from: number, to: number) => [from: number, to: number] | null} */
  rangeOf(from, to) {
    return this.rangeOfThose(({ line }) => from <= line && line <= to);
  }

  /** From which tick to which the notes and rests between two places are played first, without others between; null if that is not known.
   * @type {(start: import("../text/selection.js").Place, end: import("../text/selection.js").Place) => [from: number, to: number] | null} */
  rangeBetween(start, end) {
    const isAfter = (/** @type {Moment} */ { line, to }) => line > start.line || (line === start.line && to > start.column);
    return this.rangeOfThose((one) => isAfter(one) && (one.line < end.line || (one.line === end.line && one.from < end.column)));
  }

  /** From which tick to which some moments are played first, without others between; null if there are none.
   * @type {(inside: (moment: Moment) => boolean) => [from: number, to: number] | null} */
  rangeOfThose(inside) {
    const ranges = this.voices.flatMap(({ moments }) => {
      const first = moments.findIndex(inside), after = moments.findIndex((moment, n) => n > first && !inside(moment));
      return first < 0 ? [] : [[moments[first].start, moments[after < 0 ? moments.length - 1 : after - 1].end]];
    });
    /** @type {[from: number, to: number]} */
    const range = [Math.min(...ranges.map(([start]) => start)), Math.max(...ranges.map(([, end]) => end))];
    return range[0] < range[1] ? range : null;
  }

  /** The places of a note of the score, several if its tones are tied: each with the tick at which it is played.
   * @type {(note: Note) => { entry: Entry, start: number }[]} */
  tonesOf(note) {
    return (this.sounds.get(note) ?? []).flatMap(({ start, tones }) => tones.filter((tone) => tone.note === note).map(({ entry }) => ({ entry, start })));
  }
}

/** What a voice plays, moment by moment. The tones of a chord are one: it ends with its first tone.
 * @type {(entries: Entry[], track: number) => Moment[]} */
function momentsOf(entries, track) {
  /** @type {Moment[]} */
  const moments = [];
  /** @type {Entry | null} */
  let before = null;
  for (const entry of entries) {
    const last = moments.at(-1), tones = entry.kind === "Note" ? [{ entry, note: null }] : [];
    const isChord = before?.kind === "Note" && before.on === entry.on && entry.on < before.off && entry.line === before.line && entry.from >= before.to;
    if (last && tones.length && isChord) {
      last.to = entry.to;
      last.tones.push(...tones);
    } else if (entry.kind === "Note" || entry.kind === "Rest") {
      moments.push({ line: entry.line, from: entry.from, to: entry.to, start: entry.on, end: entry.off, track, tones });
    }
    before = entry;
  }
  return moments;
}
