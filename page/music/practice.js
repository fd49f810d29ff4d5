// What one practises with: tempo, loop, count-in, voices, and playing from the caret.

import { field, find, show, write } from "../base/elements.js";
import { momentName } from "./text_follower.js";

const REST = 100; // milliseconds after the last key

/** @typedef {import("./midi_file.js").Score} Score
 * @typedef {[from: number, to: number]} Range of ticks */

export class Practice {
  /** @param {import("./player.js").Player} player
   * @param {import("./piano_roll.js").Roll} roll
   * @param {import("./text_follower.js").Follower} follower */
  constructor(player, roll, follower) {
    this.player = player;
    this.roll = roll;
    this.follower = follower;
    /** @type {ReturnType<typeof setTimeout> | undefined} */
    this.timer = undefined;
    /** @type {number | null | undefined} */
    this.number = null; // of the tune
    /** @type {Range | null} */
    this.range = null; // [from, to] of the loop, in ticks
    /** @type {Set<number>} */
    this.muted = new Set();
    /** @type {Set<number>} */
    this.alone = new Set();
    /** @type {Map<number, number>} */
    this.volumes = new Map(); // by voice
    this.isCounted = false; // whether the bars are those of the play
    this.renewed = () => {}; // the bars or the names may be others
    /** @type {(tick: number) => void} */
    this.played = () => {}; // a tick: play from there
    /** @type {(range: Range) => void} */
    this.playedPart = () => {}; // play from a tick to a tick, once
    /** @type {(words: string) => void} */
    this.say = () => {};
    this.listen();
  }

  listen() {
    const on = (/** @type {string} */ id, /** @type {string} */ name, /** @type {() => void} */ act) => find(id).addEventListener(name, act);
    on("practise", "click", () => this.fold());
    on("from-caret", "click", () => this.fromCaret());
    on("play-selection", "click", () => this.playSelection());
    on("tempo", "input", () => this.setTempo(Number(field("tempo").value)));
    on("full-tempo", "click", () => this.setTempo(100));
    on("looping", "change", () => this.setLoop());
    on("metronome", "change", () => this.setMetronome());
    on("rise", "change", () => this.setRise());
    on("loop-lines", "click", () => this.loopLines());
    for (const id of ["loop-from", "loop-to"]) on(id, "change", () => this.loopBars());
    on("narrower", "click", () => this.roll.zoom(-1));
    on("wider", "click", () => this.roll.zoom(1));
    this.player.rose = (speed) => this.showTempo(Math.round(100 * speed));
    this.roll.stretched = (from, to) => this.loop([from, to]);
    this.roll.scroller.addEventListener("keydown", (event) => this.key(event));
    const narrow = matchMedia("(max-width: 620px)");
    const place = () => (narrow.matches ? find("from-caret").after(find("zoom")) : find("practise").before(find("zoom")));
    narrow.addEventListener("change", place);
    place();
  }

  /** Opens what one practises with, or folds it. */
  fold() {
    const isOpen = find("practice").hidden;
    find("practice").hidden = !isOpen;
    find("practise").setAttribute("aria-expanded", String(isOpen));
    document.querySelector("main")?.classList.toggle("practising", isOpen);
  }

  /** Another tune, or its file has changed.
   * @type {(score: Score | null, number: number | null | undefined) => void} */
  show(score, number) {
    const { roll, follower } = this, isOther = number !== this.number;
    clearTimeout(this.timer); // all that it would renew is renewed here
    this.number = number;
    const grid = score && follower.places?.grid;
    this.isCounted = Boolean(grid);
    roll.show(score, grid ?? undefined);
    if (isOther) {
      this.range = null;
      field("looping").checked = false;
      this.muted.clear();
      this.alone.clear();
      this.volumes.clear();
    }
    if (this.range && !(score && this.range[1] <= score.end)) this.range = null;
    this.fillBars(isOther);
    this.setLoop();
    this.showVoices(score?.voices ?? 0, isOther);
    this.silence();
    this.player.setVolumes(this.volumes);
    this.tell(roll.tick ?? 0);
    follower.caret();
  }

  /** What the tune plays may be known now: at once if nothing was known of it. */
  hear() {
    if (this.isCounted) this.refresh();
    else this.renew();
  }

  /** The text has changed: its bars are those of the roll, as soon as nothing more is typed. */
  refresh() {
    clearTimeout(this.timer);
    this.timer = setTimeout(() => this.renew(), REST);
  }

  /** Takes the bars of the play, and the names of the voices. */
  renew() {
    const { roll, follower } = this, { score } = roll, grid = follower.places?.grid;
    if (score && grid && grid !== roll.grid && follower.known.score === score) {
      this.isCounted = true;
      roll.show(score, grid);
      this.fillBars(false);
      this.tell(roll.tick ?? 0);
    }
    this.showVoices(roll.score?.voices ?? 0, false);
    this.silence();
    this.renewed();
    follower.caret();
  }

  /** How a tune begins: plays it, after a bar of clicks if that is wanted, up to a tick if one is given.
   * @type {(score: Score, tick: number, until?: number | null) => void} */
  play(score, tick, until = null) {
    const from = this.player.inLoop(tick);
    this.player.play(score, from, (field("count-in").checked && this.roll.grid?.countIn(from)) || null, until);
  }

  /** Plays what is selected once, so without a loop. */
  playSelection() {
    const range = this.follower.ticksOfSelection;
    if (!range) return this.say("Select notes in the text of this tune first.");
    field("looping").checked = false;
    this.setLoop();
    this.playedPart(range);
  }

  fromCaret() {
    const tick = this.follower.tickOfCaret;
    if (tick === null) this.say("The place of the caret in the tune is not known.");
    else this.played(tick);
  }

  /** @type {(percent: number) => void} */
  setTempo(percent) {
    this.player.setSpeed(percent / 100);
    this.showTempo(percent);
  }

  /** Shows the tempo in percent, and in beats a minute at the cursor.
   * @type {(percent: number) => void} */
  showTempo(percent) {
    field("tempo").value = String(percent);
    find("tempo").setAttribute("aria-valuetext", `${percent} percent`);
    find("full-tempo").textContent = `${percent} %`;
    this.showBeats(this.roll.tick ?? 0);
  }

  /** @type {(tick: number) => void} */
  showBeats(tick) {
    const { score, grid } = this.roll, beats = score && grid ? Math.round(grid.tempoAt(tick, score) * this.player.speed) : 0;
    write(find("beats"), beats ? `${beats} beats a minute` : "");
  }

  /** Lets a click be heard at each beat, or none. */
  setMetronome() {
    this.player.metronome = field("metronome").checked ? (from, to) => this.roll.grid?.clicksIn(from, to) ?? [] : null;
  }

  /** Lets each round of the loop be faster. */
  setRise() {
    const rise = Math.min(50, Math.max(0, Number(field("rise").value) || 0));
    field("rise").value = String(rise);
    this.player.rise = rise / 100;
  }

  /** Loops a stretch of ticks.
   * @type {(range: Range) => void} */
  loop(range) {
    this.range = range;
    field("looping").checked = true;
    this.fillBars(false);
    this.setLoop();
  }

  /** Turns the loop on or off, as its box says; without a stretch it is that of the bars in the two fields. */
  setLoop() {
    const isOn = field("looping").checked;
    if (isOn && !this.range) this.range = this.rangeOfBars();
    this.roll.enclose(isOn ? this.range : null);
    this.player.setLoop(this.roll.loop);
  }

  /** @type {() => Range | null} */
  rangeOfBars() {
    const [from, to] = ["loop-from", "loop-to"].map((id) => Number(field(id).value));
    return this.roll.grid?.rangeOf(Math.min(from, to), Math.max(from, to)) ?? null;
  }

  /** Loops the bars of the two fields. */
  loopBars() {
    const range = this.rangeOfBars();
    if (range) this.loop(range);
    else this.say("This tune has no such bars.");
  }

  loopLines() {
    const range = this.follower.rangeOfSelection;
    if (range) this.loop(range);
    else this.say("The place of these lines in the tune is not known.");
  }

  /** Writes the bars of the loop, or those of the whole tune, into the two fields.
   * @type {(isOther: boolean) => void} */
  fillBars(isOther) {
    const { grid } = this.roll, [from, to] = this.range ?? [0, grid?.end ?? 0];
    const first = field("loop-from"), end = field("loop-to");
    const last = grid?.last ?? 1, isWhole = first.value === "1" && end.value === end.max;
    first.max = end.max = String(last);
    if (!isOther && !this.range && !isWhole) return;
    first.value = String(Math.max(1, (this.range && grid?.barAt(from)?.number) || 1));
    end.value = String(this.range ? Math.max(1, grid?.barAt(to - 1)?.number ?? 1) : last);
  }

  /** A row for each voice, with what mutes it, what lets it alone be heard, and how loud it is.
   * @type {(count: number, isOther: boolean) => void} */
  showVoices(count, isOther) {
    const names = Array.from({ length: count > 1 ? count : 0 }, (_, voice) => this.follower.voiceName(voice));
    const parts = find("parts"), wanted = names.join("\n");
    show(parts, count >= 2);
    if (parts.dataset.names === wanted && !isOther) return;
    parts.dataset.names = wanted;
    parts.replaceChildren(...names.map((name, voice) => this.voiceRow(name, voice)));
  }

  /** @type {(name: string, voice: number) => HTMLElement} */
  voiceRow(name, voice) {
    const row = Object.assign(document.createElement("span"), { className: "part" });
    const swatch = document.createElement("i"), words = Object.assign(document.createElement("span"), { textContent: name });
    swatch.dataset.voice = String(voice);
    const buttons = [this.voiceButton("Mute", `Mute ${name}`, voice, this.muted), this.voiceButton("Solo", `Play ${name} alone`, voice, this.alone)];
    row.append(swatch, words, ...buttons, this.volume(name, voice));
    return row;
  }

  /** What makes a voice softer or louder.
   * @type {(name: string, voice: number) => HTMLInputElement} */
  volume(name, voice) {
    const words = `Volume of ${name}`, range = Object.assign(document.createElement("input"), { type: "range", title: words, ariaLabel: words });
    Object.assign(range, { min: "0", max: "150", step: "5", value: String(100 * (this.volumes.get(voice) ?? 1)) });
    range.addEventListener("input", () => {
      this.volumes.set(voice, Number(range.value) / 100);
      this.player.setVolumes(this.volumes);
    });
    return range;
  }

  /** A button that puts a voice among others, or takes it away.
   * @type {(words: string, label: string, voice: number, voices: Set<number>) => HTMLButtonElement} */
  voiceButton(words, label, voice, voices) {
    const button = Object.assign(document.createElement("button"), { type: "button", textContent: words, title: label, ariaLabel: label });
    button.addEventListener("click", () => {
      if (!voices.delete(voice)) voices.add(voice);
      this.silence();
    });
    return button;
  }

  /** Lets those voices be heard that are not muted, and of these only those that are to be heard alone, if there are some. */
  silence() {
    const voices = [...document.querySelectorAll("#parts .part")];
    const isSilent = (/** @type {number} */ voice) => this.muted.has(voice) || (this.alone.size > 0 && !this.alone.has(voice));
    const silent = new Set(voices.map((_, voice) => voice).filter(isSilent));
    voices.forEach((row, voice) => {
      const [mute, solo] = row.querySelectorAll("button");
      mute.ariaPressed = String(this.muted.has(voice));
      solo.ariaPressed = String(this.alone.has(voice));
      /** @type {HTMLElement | null} */
      const swatch = row.querySelector("i");
      if (swatch) swatch.style.background = this.roll.colour(voice);
      row.classList.toggle("silent-voice", silent.has(voice));
    });
    this.roll.hush(silent);
    this.player.setSilent(silent);
  }

  /** Keys of the roll: a loop begins and ends at the cursor, and is turned on and off.
   * @type {(event: KeyboardEvent) => void} */
  key(event) {
    const { grid } = this.roll, tick = this.roll.tick ?? 0;
    if (!grid || event.ctrlKey || event.metaKey || event.altKey) return;
    const [from, to] = this.range ?? [0, grid.end], key = event.key.toLowerCase();
    if (key === "a") this.loop([tick, to > tick ? to : grid.end]);
    else if (key === "b" && tick > 0) this.loop([from < tick ? from : 0, tick]);
    else if (key === "l") {
      field("looping").checked = !field("looping").checked;
      this.setLoop();
    } else return;
    event.preventDefault();
  }

  /** Announces the place of the cursor to those who do not see it.
   * @type {(tick: number) => void} */
  tell(tick) {
    const { score, grid, scroller } = this.roll;
    if (!score || !grid) return;
    this.showBeats(tick);
    const names = score.notes.filter((note) => note.start <= tick && tick < note.end).map((note) => this.follower.noteName(note));
    scroller.ariaValueMax = String(Math.round(score.end));
    scroller.ariaValueNow = String(Math.round(tick));
    scroller.ariaValueText = [momentName(grid.momentOf(tick)), ...names.slice(0, 8)].join(", ");
  }
}
