// Bars and beats of a tune in ticks. Bars have the numbers that a musician counts: a pickup is not counted, a repeated bar keeps its
// number, and a second ending has those of the first.

import { countBefore } from "../base/binary_search.js";
import { secondOf } from "./midi_file.js";
import { isBefore } from "./tune_text.js";

/** @typedef {import("../link/tokens_and_plays.js").Entry} Entry
 * @typedef {{ over: number, under: number }} Meter
 * A bar that is played: where it begins, its number, how much of its begin is missing (of a pickup), its meter, the pass, and the ticks
 * of the beat that its tempo names, if it does.
 * @typedef {{ tick: number, number: number, offset: number, meter: Meter | null, pass: number, told: number | null }} Bar
 * What is played without a bar line in it: its place in the text and its section, its ticks, and whether it may be a pickup.
 * @typedef {{ place: string, section: number, start: number, length: number, isSoft: boolean, beat: number | null }} Span */

const QUARTER = 480; // ticks

/** The ticks of a measure, 0 in free meter.
 * @type {(meter: Meter | null) => number} */
const measureOf = (meter) => (meter ? (4 * QUARTER * meter.over) / meter.under : 0);

/** The bars that a voice plays, from the place of each on. Each has the number that follows that of the bar played before it in its
 * section, so an ending has the numbers of the one that it replaces. Sections are numbered in the order of the text.
 * @type {(entries: Entry[], words: import("./tune_text.js").TuneWords, meters: import("./midi_file.js").Meter[]) => Bar[]} */
export function playedBars(entries, words, meters) {
  /** @type {Map<string, { number: number, offset: number }>} */
  const written = new Map(); // by place: the number in its section, and what is missing of a pickup
  const spans = spansOf(entries, words);
  /** @type {number[]} */
  const most = []; // by section: the greatest number
  /** @type {Bar[]} */
  const bars = [];
  let before = { section: -1, number: 0 };
  for (const { place, section, start, length, isSoft, beat } of spans) {
    const meter = meters.findLast(({ tick }) => tick <= start) ?? null, whole = measureOf(meter);
    const isPickup = isSoft && length < whole, last = before.section === section ? before.number : 0;
    const bar = written.get(place) ?? (isPickup ? { number: last, offset: whole - length } : { number: last + 1, offset: 0 });
    written.set(place, bar);
    most[section] = Math.max(most[section] ?? 0, bar.number);
    bars.push({ tick: start, ...bar, meter, pass: 1, told: beat && beat * QUARTER });
    before = { section, number: bar.number };
  }
  /** @type {Map<string, number>} */
  const passes = new Map(); // by number: how often the bar was played
  for (const [n, bar] of bars.entries()) {
    bar.number += most.slice(0, spans[n].section).reduce((sum, number) => sum + (number ?? 0), 0);
    const name = `${bar.number} ${bar.offset > 0}`;
    bar.pass = (passes.get(name) ?? 0) + 1;
    passes.set(name, bar.pass);
  }
  return bars;
}

/** What a voice plays between bar lines, and from one section to the next. What comes after a bar line that is not a thin line alone, or
 * opens a section, is soft: it may be a pickup.
 * @type {(entries: Entry[], words: import("./tune_text.js").TuneWords) => Span[]} */
function spansOf(entries, words) {
  /** @type {Span[]} */
  const spans = [];
  let isSoft = false, isBar = false;
  /** @type {Entry | null} */
  let before = null;
  for (const entry of entries) {
    if (entry.kind === "Bar") {
      isSoft ||= words.at(entry) !== "|";
      isBar = true;
      continue;
    }
    const section = words.sectionOf(entry), last = spans.at(-1), opens = !last || section !== last.section;
    if (opens || isBar || (before && isBefore(entry, before))) {
      if (last) last.length = Math.min(entry.on, last.start + last.length) - last.start;
      if (last?.length === 0) spans.pop();
      spans.push({ place: `${entry.line} ${entry.from}`, section, start: entry.on, length: 0, isSoft: isSoft || opens, beat: words.beatAt(entry) });
      [isSoft, isBar] = [false, false];
    }
    const span = spans[spans.length - 1];
    span.length = Math.max(span.length, entry.off - span.start);
    before = entry;
  }
  return spans;
}

/** The ticks of a beat: those of the beat that the tempo names, if a bar is some of those; else in compound meters three of the lower
 * number, and in others one. In compound meters no other beats are counted.
 * @type {(meter: Meter | null, division: number, told?: number | null) => number} */
export function beatOf(meter, division, told = null) {
  if (!meter) return told ?? division;
  const isCompound = meter.over > 3 && meter.over % 3 === 0 && meter.under >= 8, lower = (4 * division) / meter.under;
  const isCounted = told !== null && (meter.over * lower) % told === 0 && (!isCompound || told === lower || told === 3 * lower);
  return isCounted ? told : lower * (isCompound ? 3 : 1);
}

export class Grid {
  /** Bars in order, the first at tick 0; `end` is the tick after the last.
   * @param {Bar[]} bars
   * @param {number} end
   * @param {number} division */
  constructor(bars, end, division) {
    this.bars = bars;
    this.end = end;
    this.division = division;
  }

  /** The grid of the bars of a text. If their voice ends before the tune does, it goes on by the meter.
   * @type {(bars: Bar[], score: { end: number, division: number }, endOfVoice: number) => Grid} */
  static ofBars(bars, { end, division }, endOfVoice) {
    const grid = new Grid(bars, end, division), last = bars.at(-1), measure = measureOf(last?.meter ?? null);
    if (!last || !measure) return grid;
    const next = Math.max(endOfVoice, last.tick + measure - last.offset);
    for (let n = 1, tick = next; tick < end; n += 1, tick += measure) bars.push({ ...last, tick, number: last.number + n, offset: 0 });
    return grid;
  }

  /** The grid by the meters of a file alone.
   * @type {(score: import("./midi_file.js").Score) => Grid} */
  static ofMeters({ bars, meters, end, division }) {
    const meterAt = (/** @type {number} */ tick) => meters.findLast((meter) => meter.tick <= tick) ?? null;
    return new Grid(bars.slice(0, -1).map((tick, n) => ({ tick, number: n + 1, offset: 0, meter: meterAt(tick), pass: 1, told: null })), end, division);
  }

  /** How many bars are played, pickups aside. */
  get count() {
    return this.bars.filter(({ offset }) => !offset).length;
  }

  /** The place in the list of the bar at a tick.
   * @type {(tick: number) => number} */
  placeAt(tick) {
    return Math.max(0, countBefore(this.bars, (bar) => bar.tick <= tick) - 1);
  }

  /** @type {(tick: number) => Bar | undefined} */
  barAt(tick) {
    return this.bars[this.placeAt(tick)];
  }

  /** Where the bar at a place of the list ends.
   * @type {(place: number) => number} */
  endOf(place) {
    return this.bars[place + 1]?.tick ?? this.end;
  }

  /** The ticks of the beats of the bar at a place of the list.
   * @type {(place: number) => number[]} */
  beatsOf(place) {
    const { tick, offset, meter, told } = this.bars[place], end = this.endOf(place);
    const beat = beatOf(meter, this.division, told), beats = [tick];
    for (let at = tick + beat - (offset % beat); at < end; at += beat) beats.push(at);
    return beats;
  }

  /** The beats from a tick to another one, for a metronome.
   * @type {(from: number, to: number) => import("./player.js").Click[]} */
  clicksIn(from, to) {
    const clicks = [];
    for (let place = this.placeAt(from); place < this.bars.length && this.bars[place].tick < to; place += 1) {
      const { tick, offset } = this.bars[place];
      for (const at of this.beatsOf(place)) if (from <= at && at < to) clicks.push({ at, isFirst: at === tick && !offset });
    }
    return clicks;
  }

  /** How many beats a minute has at a tick.
   * @type {(tick: number, score: import("./midi_file.js").Score) => number} */
  tempoAt(tick, score) {
    const bar = this.barAt(tick), beat = beatOf(bar?.meter ?? null, this.division, bar?.told);
    return 60 / (secondOf(score, tick + beat) - secondOf(score, tick));
  }

  /** The bar and the beat of a tick, as they are counted; the bar of a pickup before the first bar is 0.
   * @type {(tick: number) => { bar: number, beat: number, pass: number }} */
  momentOf(tick) {
    const bar = this.barAt(tick);
    if (!bar) return { bar: 0, beat: 1, pass: 1 };
    const beat = Math.floor((tick - bar.tick + bar.offset) / beatOf(bar.meter, this.division, bar.told)) + 1;
    return { bar: bar.number, beat, pass: bar.pass };
  }

  /** The next stop after a tick, of beats or of bars.
   * @type {(tick: number, byBar: boolean) => number} */
  after(tick, byBar) {
    const place = this.placeAt(tick);
    const stop = byBar ? undefined : this.bars[place] && this.beatsOf(place).find((beat) => beat > tick);
    return stop ?? this.endOf(place);
  }

  /** The stop before a tick.
   * @type {(tick: number, byBar: boolean) => number} */
  before(tick, byBar) {
    const place = this.placeAt(Math.max(0, tick - 1));
    if (!this.bars.length) return 0;
    return (byBar ? undefined : this.beatsOf(place).findLast((beat) => beat < tick)) ?? this.bars[place].tick;
  }

  /** The clicks before a tick, and how long they last: a bar, and what of the tick's bar precedes it. In free meter four quarters.
   * @type {(tick: number) => import("./player.js").CountIn} */
  countIn(tick) {
    const bar = this.barAt(tick), meter = bar?.meter ?? null;
    const beat = beatOf(meter, this.division, bar?.told), measure = measureOf(meter) || 4 * this.division;
    const before = bar && meter ? (tick - bar.tick + bar.offset) % measure : 0;
    const clicks = [];
    for (let at = 0; at < measure + before; at += beat) clicks.push({ at, isFirst: at === 0 || at === measure });
    return { length: measure + before, clicks };
  }

  /** The ticks of the bars with the numbers from..to where they are played first, null if there are none.
   * @type {(from: number, to: number) => [from: number, to: number] | null} */
  rangeOf(from, to) {
    const first = this.bars.findIndex(({ number, offset }) => number === from && !offset);
    const last = this.bars.findIndex(({ number, offset }, place) => place >= first && number === to && !offset);
    return first < 0 || last < 0 ? null : [this.bars[first].tick, this.endOf(last)];
  }

  /** The greatest number of a bar. */
  get last() {
    return this.bars.reduce((most, { number }) => Math.max(most, number), 0);
  }
}
