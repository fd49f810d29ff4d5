// The tune that is shown: its file, which the server has, as a score.

import { scoreOf } from "./midi_file.js";

const SOON = 50; // milliseconds after a change, so that the browser paints the answer to a key first

export class ShownTune {
  /** @param {import("../link/book_host.js").BookHost} server
   * @param {import("../link/host_link.js").Link} link
   * @param {import("../link/findings.js").Findings} findings */
  constructor(server, link, findings) {
    this.server = server;
    this.link = link;
    this.findings = findings;
    /** @type {number | null | undefined} */
    this.number = null; // null without a file, undefined if the file may be another one
    /** @type {import("./midi_file.js").Score | null} */
    this.score = null;
    /** @type {number | null} */
    this.owner = null; // the number of the score, while that of another number is read
    this.asked = 0; // how often a file was asked for
    /** @type {ReturnType<typeof setTimeout> | undefined} */
    this.timer = undefined; // until the file is read again
    /** @type {(isOther: boolean) => void} */
    this.asks = () => {}; // the file of a number is asked for, which may be another number
    this.came = () => {}; // a score is there, or there is none
  }

  /** Reads the file of a number; one that is asked for later comes in its place.
   * @type {(number: number | null) => Promise<void>} */
  async load(number) {
    const asked = (this.asked += 1);
    this.stopTimer();
    const isOther = number !== this.number;
    this.number = number;
    this.asks(isOther);
    let score = null;
    try {
      if (number !== null && this.link.away) throw new Error(this.link.away);
      const bytes = number === null ? null : await this.server.bytes(`midi/${number}`);
      if (bytes) score = scoreOf(bytes);
    } catch {
      if (this.asked === asked) this.fail(number);
      return;
    }
    if (this.asked !== asked) return;
    this.score = score;
    this.owner = number;
    this.came();
  }

  /** Shows a score of a number that was read already.
   * @type {(number: number, score: import("./midi_file.js").Score) => void} */
  put(number, score) {
    this.asked += 1; // an answer that comes later is not shown
    this.stopTimer();
    const isOther = number !== this.number;
    this.number = number;
    this.asks(isOther);
    this.score = score;
    this.owner = number;
    this.came();
  }

  /** The file of a number cannot be read. The notes of another number go, and those of this one stay.
   * @type {(number: number | null) => void} */
  fail(number) {
    this.number = null;
    if (number === this.owner) return;
    this.score = this.owner = null;
    this.came();
  }

  /** Reads the file again soon if it is one of these numbers. Changes that follow one another soon are one.
   * @type {(numbers: number[]) => void} */
  reload(numbers) {
    const { number } = this;
    if (typeof number === "number" && numbers.includes(number)) this.timer ??= setTimeout(() => this.load(number), SOON);
  }

  stopTimer() {
    clearTimeout(this.timer);
    this.timer = undefined;
  }

  /** Forgets which file it is: the next look at the tune reads it. */
  doubt() {
    this.stopTimer();
    this.number = undefined;
  }

  /** The place among the tunes of the one that is shown, -1 if the text has it no more. */
  get at() {
    return this.findings.ownerOf(this.number ?? null);
  }

  /** The score with its number and its lines in the book; null without.
   * @returns {import("./text_follower.js").TuneInBook | null} */
  get inBook() {
    const { score, owner, findings } = this, at = score ? findings.ownerOf(owner) : -1;
    return score && owner !== null && at >= 0 ? { score, number: owner, first: findings.tunes[at][0], last: findings.endOf(at) } : null;
  }
}
