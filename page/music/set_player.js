// Plays the tunes of a set one after another, without a gap, and shows each when it is heard.

import { scoreOf } from "./midi_file.js";

/** @typedef {import("./midi_file.js").Score} Score
 * @typedef {import("../tunes/tune_sets.js").Item} Item */

export class SetPlayer {
  /** @param {import("./music_panel.js").Music} music
   * @param {(words: string) => void} say
   * @param {() => void} turned a tune of the set is heard from now on */
  constructor(music, say, turned) {
    this.music = music;
    this.say = say;
    this.turned = turned;
    /** @type {Map<Score, number>} */
    this.numbers = new Map(); // of the tunes of the set that plays
    music.turned = (score) => this.turn(score);
  }

  /** Plays tunes, each some times. Those without a file are left out.
   * @type {(items: Item[]) => Promise<void>} */
  async play(items) {
    const { music } = this, { player, shown, transport, practice } = music;
    player.stop();
    /** @type {Map<number, Score | null>} */
    const scores = new Map();
    for (const { number } of items) if (!scores.has(number)) scores.set(number, await this.read(number));
    const order = items.flatMap(({ number, times }) => Array(times).fill(scores.get(number) ?? []).flat());
    const missing = items.filter(({ number }) => !scores.get(number)).map(({ number }) => number);
    if (missing.length) this.say(`Not in the set, because there is no file: ${missing.join(", ")}.`);
    if (!order.length) return;
    this.numbers = new Map([...scores].flatMap(([number, score]) => (score ? [[score, number]] : [])));
    this.show(order[0]);
    transport.start = 0;
    transport.showStop();
    practice.play(order[0], 0);
    player.queue = order.slice(1);
    this.turned();
    if (player.font?.name) void player.font.loadAll(player.audio, [...this.numbers.keys()].flatMap(({ notes }) => notes.map((note) => player.shifted(note))));
    shown.stopTimer();
  }

  /** The score of a number, null if it has no file.
   * @type {(number: number) => Promise<Score | null>} */
  async read(number) {
    const { shown } = this.music;
    if (shown.findings.ownerOf(number) < 0 || shown.link.away) return null;
    const bytes = await shown.server.bytes(`midi/${number}`).catch(() => null);
    return bytes && scoreOf(bytes);
  }

  /** Another score is heard: if it is that of a tune of the set, it is shown.
   * @type {(score: Score) => void} */
  turn(score) {
    if (!this.numbers.has(score) || this.numbers.get(score) === this.music.shown.owner) return;
    this.show(score);
    this.turned();
  }

  /** @type {(score: Score) => void} */
  show(score) {
    const { music } = this, number = this.numbers.get(score);
    if (number === undefined) return;
    music.shown.put(number, score);
    music.bar.title(music.row);
    if (music.player.playing) music.keys.show(true);
  }
}
