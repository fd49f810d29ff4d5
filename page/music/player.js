// Plays a score by Web Audio: notes are scheduled a moment before they sound.

import { secondOf, tickOf } from "./midi_file.js";
import { soundClick, soundNote } from "./synth_sounds.js";

/** @typedef {import("./midi_file.js").Score} Score
 * @typedef {import("./midi_file.js").Note} Note
 * A stretch of a score: from a tick, which sounds at a time.
 * @typedef {{ score: Score, tick: number, time: number }} Start
 * @typedef {Start & { speed: number }} Leg
 * A note that is scheduled, with the tick at which it ends.
 * @typedef {import("./synth_sounds.js").Sound & { last: number }} Sounding
 * A click at a tick, which is the first of its bar or not.
 * @typedef {{ at: number, isFirst: boolean }} Click
 * Some browsers have an `audioSession`.
 * @typedef {{ audioSession?: { type: string } }} Machine
 * The clicks of a count-in and how long they last, in ticks.
 * @typedef {{ length: number, clicks: Click[] }} CountIn */

const AHEAD = 0.25, AHEAD_HIDDEN = 2.5, EVERY = 60; // seconds, seconds in a tab that is not seen, milliseconds
const LONGEST = 4096; // notes scheduled at once
const SOON = 0.02; // seconds from a press of the button to the first note
const MOST_LEGS = 64; // rounds of a loop scheduled at once
const MOST_SPEED = 2; // to which rounds of a loop rise
const TOUCHED = 1.5; // seconds for which a note sounds at most that someone points at
const PATIENCE = 3000; // milliseconds for the sound system to begin
const FADE = 0.02, FADED = 200; // seconds in which what sounds fades away, milliseconds after which its way is taken down

/** The time at which a tick of a leg sounds.
 * @type {(leg: Leg, at: number) => number} */
function timeIn({ score, tick, time, speed }, at) {
  return time + (secondOf(score, at) - secondOf(score, tick)) / speed;
}

/** The tick of a leg that sounds at a time.
 * @type {(leg: Leg, at: number) => number} */
function tickIn({ score, tick, time, speed }, at) {
  return tickOf(score, secondOf(score, tick) + (at - time) * speed);
}

/** A player plays legs one after another: stretches of a score at one speed, each from a tick and a time on. A round of a loop,
 * another tempo and a changed score begin a leg each. */
export class Player {
  constructor() {
    /** @type {Score | null} */
    this.score = null; // that of the last leg
    /** @type {Leg[]} */
    this.legs = []; // the one that sounds, and those that follow it
    /** @type {{ score: Score, tick: number } | null} */
    this.next = null; // a score that takes over at a bar: { score, tick }
    this.speed = 1;
    this.shift = 0; // semitones by which what is heard is higher
    /** @type {number | null} */
    this.until = null; // the tick at which a selection ends
    /** @type {Score[]} */
    this.queue = []; // the scores that follow, one after another
    /** @type {(score: Score) => void} */
    this.turned = () => {}; // another score is heard
    /** @type {{ clicks: Click[], start: number, each: number } | null} */
    this.count = null; // the clicks of the count-in, the time of the first, and the seconds of a tick
    this.rise = 0; // what each round of a loop adds to the speed
    /** @type {(speed: number) => void} */
    this.rose = () => {};
    /** @type {((from: number, to: number) => Click[]) | null} */
    this.metronome = null; // the clicks from a tick to another one
    this.clicked = 0; // the tick of the last leg up to which clicks are scheduled
    /** @type {Map<number, number>} */
    this.volumes = new Map(); // by voice; 1 if it has none
    /** @type {[from: number, to: number] | null} */
    this.loop = null; // [from, to], in ticks
    /** @type {Set<number>} */
    this.silent = new Set(); // voices
    /** @type {Map<number, GainNode>} */
    this.outs = new Map(); // by voice: what its notes go through
    /** @type {Sounding[]} */
    this.sounding = []; // notes that are scheduled
    this.at = 0; // the place of the next note of the last leg
    this.scheduled = 0; // the time up to which notes are scheduled
    /** @type {ReturnType<typeof setInterval> | null} */
    this.timer = null;
    /** @type {AudioContext | null} */
    this.opened = null;
    /** @type {import("./sound_font.js").Font | null} */
    this.font = null; // sampled instruments; without it the sounds are plain
    /** @type {GainNode | null} */
    this.way = null; // to the loudspeaker
    /** @type {(tick: number) => void} */
    this.moved = () => {};
    this.ended = () => {};
    this.refused = () => {}; // the sound system does not begin
    this.plays = 0; // how often someone asked for a tune, or for silence
    document.addEventListener("visibilitychange", () => this.timer && this.look());
  }

  get playing() {
    return this.score !== null;
  }

  /** Plays a score from a tick on, after the clicks of a count-in, up to a tick or its end.
   * @param {Score} score
   * @param {number} tick
   * @param {CountIn | null} count
   * @param {number | null} until */
  async play(score, tick = 0, count = null, until = null) {
    this.stop();
    this.until = until;
    const play = (this.plays += 1);
    this.enter({ score, tick: this.inLoop(tick), time: this.audio.currentTime });
    const isRunning = await this.resume();
    if (isRunning) await this.font?.load(this.audio, score.notes.map((note) => this.shifted(note)));
    if (this.plays !== play) return;
    if (isRunning) return this.begin(score, tick, count);
    this.end();
    this.refused();
  }

  /** The sound system, which browsers let begin when someone asks for sound. */
  get audio() {
    return (this.opened ??= this.open());
  }

  /** Opens the sound system. If it is interrupted, as by a call, the tune stops. */
  open() {
    const audio = new AudioContext(), machine = /** @type {Machine | undefined} */ (globalThis.navigator);
    if (machine?.audioSession) machine.audioSession.type = "playback"; // a telephone plays although it is silenced for calls
    audio.onstatechange = () => this.timer && audio.state !== "running" && this.stop();
    return audio;
  }

  /** Lets the sound system begin; whether it does. */
  async resume() {
    const { audio } = this, begun = audio.resume().catch(() => {});
    if (audio.state !== "running") await Promise.race([begun, new Promise((done) => setTimeout(done, PATIENCE))]);
    return audio.state === "running";
  }

  /** What the notes of all voices go through. */
  get out() {
    return (this.way ??= outletOf(this.audio));
  }

  /** The time of what is heard now: a sound takes a moment to the loudspeaker. */
  get heard() {
    return this.audio.currentTime - (this.audio.outputLatency || 0);
  }

  /** A tick, or the beginning of the loop if that does not have it.
   * @type {(tick: number) => number} */
  inLoop(tick) {
    return this.loop && !(this.loop[0] <= tick && tick < this.loop[1]) ? this.loop[0] : tick;
  }

  /** Begins to sound.
   * @type {(score: Score, tick: number, count: CountIn | null) => void} */
  begin(score, tick, count) {
    const from = this.inLoop(tick), now = this.audio.currentTime + SOON;
    const each = (secondOf(score, from + 1) - secondOf(score, from)) / this.speed;
    for (const { at, isFirst } of count?.clicks ?? []) soundClick(this.audio, now + at * each, isFirst, this.out);
    this.count = count && { clicks: count.clicks, start: now, each };
    this.legs = [];
    this.next = null;
    this.scheduled = now;
    this.enter({ score, tick: from, time: now + (count?.length ?? 0) * each });
    this.timer ??= setInterval(() => this.look(), EVERY);
    this.look();
  }

  /** Goes to a tick while it plays.
   * @type {(tick: number) => void} */
  seek(tick) {
    if (!this.timer || !this.score) return;
    this.hush();
    if (this.until !== null && tick >= this.until) this.until = null;
    this.begin(this.leg.score, tick, null);
  }

  /** Adds a leg after the last one; `at` is the place of its first note.
   * @param {Start} leg
   * @param {number} at */
  enter(leg, at = leg.score.notes.findIndex((note) => note.start >= leg.tick)) {
    this.score = leg.score;
    this.clicked = leg.tick;
    this.legs.push({ ...leg, speed: this.speed });
    this.at = at < 0 ? leg.score.notes.length : at;
  }

  /** The leg that is heard now: the first one while it is counted in. */
  get leg() {
    const now = this.heard;
    return this.legs.findLast(({ time }) => time <= now) ?? this.legs[0];
  }

  /** The number of the beat of a count-in that is heard now, from 1 on in each bar; 0 without one. */
  get counted() {
    const { count, legs } = this;
    if (!count || !legs.length || this.heard >= legs[0].time) return 0;
    const begun = count.clicks.filter(({ at }) => count.start + at * count.each <= this.heard + 1e-6);
    return begun.length - Math.max(0, begun.findLastIndex(({ isFirst }) => isFirst));
  }

  /** A note as it is heard. MIDI has 128 keys, and a drum has no pitch.
   * @type {(note: Note) => Note} */
  shifted(note) {
    return this.shift && !note.drum ? { ...note, key: Math.max(0, Math.min(127, note.key + this.shift)) } : note;
  }

  /** The tick that is heard now. */
  get tick() {
    return Math.max(this.leg.tick, tickIn(this.leg, this.heard));
  }

  /** The last leg. */
  get latest() {
    return this.legs[this.legs.length - 1];
  }

  /** Where the last leg ends, and what follows it: nothing at the end of the last tune, or of a selection. A changed score comes in at
   * its bar, or at the next round of the loop. */
  get stopping() {
    const { score, tick } = this.latest;
    const loopEnd = this.loop && tick < this.loop[1] ? Math.min(this.loop[1], score.end) : Infinity;
    const goesRound = this.loop && loopEnd < Infinity && !(this.next && this.next.tick < loopEnd);
    if (goesRound && this.loop) return { stop: loopEnd, follow: { score: this.next?.score ?? score, tick: this.loop[0] }, goesRound, isOther: false };
    const stop = this.next?.tick ?? score.end, { until, next } = this, [other] = this.queue;
    if (until !== null && until <= stop) return { stop: until, follow: null, goesRound: false, isOther: false };
    const changed = next && next.tick < next.score.end ? next : null;
    return { stop, follow: changed ?? (other ? { score: other, tick: 0 } : null), goesRound: false, isOther: !changed };
  }

  /** Hands over the notes that sound soon, leg by leg. */
  look() {
    const now = this.audio.currentTime, until = now + (document.hidden ? AHEAD_HIDDEN : AHEAD);
    for (let n = 0; n < MOST_LEGS; n += 1) {
      const { stop, follow, goesRound, isOther } = this.stopping, end = timeIn(this.latest, stop);
      this.hand(Math.min(until, end), stop);
      if (!follow && this.heard >= end) return this.end();
      if (!follow || until < end) break;
      this.next = null;
      if (isOther) this.queue.shift();
      if (goesRound) this.speedUp();
      this.enter({ ...follow, time: end });
    }
    const { leg } = this, [before] = this.legs;
    this.legs = this.legs.slice(this.legs.indexOf(leg));
    if (leg.score !== before.score) this.turned(leg.score);
    this.sounding = this.sounding.filter(({ off }) => off > now);
    this.moved(this.tick);
  }

  /** Another round of the loop may be faster. */
  speedUp() {
    if (!this.rise || this.speed >= MOST_SPEED) return;
    this.speed = Math.min(MOST_SPEED, this.speed + this.rise);
    this.rose(this.speed);
  }

  /** Hands over the notes and clicks of the last leg that start before a time and a tick.
   * @type {(until: number, stop: number) => void} */
  hand(until, stop) {
    const leg = this.latest, { notes } = leg.score;
    for (let n = 0; n < LONGEST && this.at < notes.length; n += 1) {
      const note = notes[this.at], start = timeIn(leg, note.start);
      if (start >= until || note.start >= stop) break;
      const last = (this.loop && !this.next) || this.until !== null ? Math.min(note.end, stop) : note.end;
      this.sound(note, start, timeIn(leg, last), last);
      this.at += 1;
    }
    const to = Math.min(tickIn(leg, until), stop), clicks = this.metronome?.(this.clicked, to) ?? [];
    for (const { at, isFirst } of clicks) soundClick(this.audio, Math.max(timeIn(leg, at), this.audio.currentTime), isFirst, this.out);
    this.clicked = Math.max(this.clicked, to);
    this.scheduled = Math.max(this.scheduled, until);
  }

  /** The score was changed: what follows from the next bar on that is not scheduled is that of the new one.
   * @type {(score: Score) => void} */
  change(score) {
    if (!this.score || !this.timer || score === this.score) return;
    void this.font?.load(this.audio, score.notes.map((note) => this.shifted(note)));
    this.queue = this.queue.map((one) => (one === this.score ? score : one));
    const { bars, notes, end } = this.score;
    const soon = tickIn(this.latest, this.audio.currentTime + AHEAD);
    const tick = bars.find((bar) => bar >= soon) ?? end;
    const latest = notes[this.at - 1]?.start ?? 0;
    this.next = { score, tick: latest < tick ? tick : (bars.find((one) => one > latest) ?? end) };
  }

  /** Changes the tempo by this factor, from the next note that is not scheduled yet.
   * @type {(speed: number) => void} */
  setSpeed(speed) {
    this.speed = speed;
    if (!this.timer) return;
    const leg = this.latest, time = Math.max(this.scheduled, leg.time), { clicked } = this;
    this.enter({ score: leg.score, tick: tickIn(leg, time), time }, this.at);
    this.clicked = clicked;
    for (const note of this.sounding) this.bend(note, this.latest);
  }

  /** Plays a stretch of ticks again and again, or goes on to the end.
   * @type {(loop: [from: number, to: number] | null) => void} */
  setLoop(loop) {
    const isSame = loop?.[0] === this.loop?.[0] && loop?.[1] === this.loop?.[1];
    this.loop = loop;
    if (!this.timer || !loop || isSame) return;
    const ahead = tickIn(this.latest, this.scheduled);
    if (this.inLoop(this.tick) !== this.tick || ahead > loop[1]) this.seek(this.tick);
  }

  /** Lets all voices be heard but some.
   * @type {(voices: Set<number>) => void} */
  setSilent(voices) {
    this.silent = voices;
    for (const [voice, out] of this.outs) out.gain.value = this.volumeOf(voice);
  }

  /** Lets voices be softer or louder; those without a volume are as loud as they are.
   * @type {(volumes: Map<number, number>) => void} */
  setVolumes(volumes) {
    this.volumes = volumes;
    this.setSilent(this.silent);
  }

  /** How loud a voice is.
   * @type {(voice: number) => number} */
  volumeOf(voice) {
    return this.silent.has(voice) ? 0 : (this.volumes.get(voice) ?? 1);
  }

  /** What the notes of a voice go through.
   * @type {(voice: number) => GainNode} */
  outOf(voice) {
    const known = this.outs.get(voice);
    if (known) return known;
    const out = this.audio.createGain();
    out.gain.value = this.volumeOf(voice);
    out.connect(this.out);
    this.outs.set(voice, out);
    return out;
  }

  /** One note from a time to a time; `last` is the tick at which it ends.
   * @type {(note: Note, start: number, end: number, last: number) => void} */
  sound(note, start, end, last) {
    const from = Math.max(start, this.audio.currentTime), out = this.outOf(note.voice), heard = this.shifted(note);
    const sound = this.font?.sound(this.audio, heard, from, end, out) ?? soundNote(this.audio, heard, from, end, out);
    this.sounding.push(Object.assign(sound, { last }));
  }

  /** Sounds notes of a score at once, unless a tune plays.
   * @type {(score: Score, notes: Note[]) => Promise<void>} */
  async touch(score, notes) {
    if (this.playing || !notes.length) return;
    const { plays } = this;
    if (!(await this.resume())) return;
    await this.font?.load(this.audio, notes.map((note) => this.shifted(note)));
    if (this.plays !== plays) return;
    const now = this.audio.currentTime, leg = { score, tick: 0, time: now, speed: this.speed };
    for (const note of notes) this.sound(note, now, now + Math.min(TOUCHED, timeIn(leg, note.end) - timeIn(leg, note.start)), note.end);
  }

  /** A note that sounds ends by another leg.
   * @type {(note: Sounding, leg: Leg) => void} */
  bend(note, leg) {
    if (note.off > leg.time && note.last >= leg.tick) note.endAt(timeIn(leg, note.last));
  }

  /** Cancels all scheduled notes. Those that sound fade away: a sound that ends at once clicks. */
  hush() {
    const { out, audio } = this;
    out.gain.setValueAtTime(1, audio.currentTime);
    out.gain.linearRampToValueAtTime(0, audio.currentTime + FADE);
    setTimeout(() => out.disconnect(), FADED);
    this.way = null;
    this.outs.clear();
    this.sounding = [];
  }

  /** Silence. */
  stop() {
    if (!this.playing) return;
    this.hush();
    this.end();
  }

  /** Plays no more. Notes that are dying away do so. */
  end() {
    clearInterval(this.timer ?? undefined);
    this.plays += 1;
    this.timer = this.score = this.next = this.until = this.count = null;
    this.legs = [];
    this.queue = [];
    this.ended();
  }
}

/** A way to the loudspeaker.
 * @type {(audio: BaseAudioContext) => GainNode} */
export function outletOf(audio) {
  const out = audio.createGain();
  out.connect(audio.createDynamicsCompressor()).connect(audio.destination);
  return out;
}
