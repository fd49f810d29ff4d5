// Plays and stops the tune that is shown; where in it the cursor is, and what time that is.

import { button, find, show, write } from "../base/elements.js";
import { clock } from "../base/time_format.js";
import { secondOf } from "./midi_file.js";

export class Transport {
  /** @param {import("./shown_tune.js").ShownTune} shown
   * @param {import("./player.js").Player} player
   * @param {import("./piano_roll.js").Roll} roll
   * @param {import("./text_follower.js").Follower} follower
   * @param {import("./practice.js").Practice} practice */
  constructor(shown, player, roll, follower, practice) {
    this.shown = shown;
    this.player = player;
    this.roll = roll;
    this.follower = follower;
    this.practice = practice;
    this.start = 0; // the tick at which to play
    this.ended = () => {};
    /** @type {(isPlaying: boolean) => void} */
    this.played = () => {}; // the tune begins to play, or plays no more
    this.listen();
  }

  listen() {
    find("play").addEventListener("click", () => this.playOrStop());
    this.player.moved = (tick) => this.move(tick);
    this.player.ended = () => this.end();
    this.roll.picked = (tick, note) => {
      this.goTo(tick);
      if (!note) return;
      this.follower.goTo(note, tick);
      if (this.shown.score) this.player.touch(this.shown.score, [note]);
    };
    this.follower.sheet.area.addEventListener("click", () => this.touch());
    this.practice.played = (tick) => {
      this.goTo(tick);
      if (!this.player.playing) this.playOrStop();
    };
    this.practice.playedPart = ([from, to]) => this.playPart(from, to);
  }

  /** Plays the tune that is shown, or stops. */
  playOrStop() {
    const { player, shown, start } = this;
    if (player.playing) return player.stop();
    if (!shown.score) return;
    this.showStop();
    this.practice.play(shown.score, start < shown.score.end ? start : 0);
  }

  /** Goes to the next bar, or the one before.
   * @type {(isForward: boolean) => void} */
  step(isForward) {
    const { grid } = this.roll, tick = this.roll.tick ?? 0;
    if (grid) this.goTo(isForward ? grid.after(tick, true) : grid.before(tick, true));
  }

  /** Shows that it plays, and that the button stops it. */
  showStop() {
    find("play").textContent = "■ Stop";
    this.played(true);
  }

  /** Plays from a tick to a tick of the tune that is shown.
   * @type {(from: number, to: number) => void} */
  playPart(from, to) {
    const { player, shown } = this;
    if (!shown.score) return;
    player.stop();
    this.goTo(from);
    this.showStop();
    this.practice.play(shown.score, from, to);
  }

  /** Someone points at a place of the text, at which the caret is: its notes sound, and the tune is to play from there. */
  touch() {
    const { player, shown } = this, touched = player.playing || !shown.score ? null : this.follower.touched;
    if (!touched || !shown.score) return;
    this.goTo(touched.start);
    player.touch(shown.score, touched.notes);
  }

  /** Goes to a tick of the tune, and plays on from there if it plays.
   * @type {(tick: number) => void} */
  goTo(tick) {
    this.start = tick;
    if (this.player.playing) this.player.seek(tick);
    else this.roll.cursor(tick);
    this.showTime(tick);
    this.practice.tell(tick);
  }

  /** The file of a tune is read: another one plays from its begin.
   * @type {(isOther: boolean) => void} */
  rewind(isOther) {
    if (isOther) this.start = 0;
    if (!this.start && !this.player.playing) this.roll.cursor(null);
  }

  /** Plays on with the score that came; without one it stops. */
  change() {
    if (this.shown.score) this.player.change(this.shown.score);
    else this.player.stop();
  }

  /** The player is at a tick.
   * @type {(tick: number) => void} */
  move(tick) {
    this.roll.cursor(tick);
    this.showTime(tick);
    this.showCount(this.player.counted);
    this.follower.sound(tick);
  }

  /** Shows the number of a beat of the count-in, or none.
   * @type {(number: number) => void} */
  showCount(number) {
    const counted = find("counted");
    show(counted, number > 0);
    if (number) write(counted, String(number));
  }

  /** The player plays no more. */
  end() {
    find("play").textContent = "▶ Play";
    this.roll.cursor(this.start || null);
    this.showTime(this.start);
    this.showCount(0);
    this.follower.sound(null);
    this.played(false);
    this.ended();
  }

  /** Shows what can be played, and the time. */
  refresh() {
    button("play").disabled = !this.shown.score;
    this.showTime(this.player.playing ? this.player.tick : this.start);
  }

  /** Shows the time of a tick.
   * @type {(tick: number) => void} */
  showTime(tick) {
    const score = this.player.score ?? this.shown.score;
    write(find("time"), score ? `${clock(secondOf(score, tick))} / ${clock(secondOf(score, score.end))}` : "");
  }
}
