// The music of a tune: its file in the roll, what plays it, and what is said of it.

import { find } from "../base/elements.js";
import { FingeringRow } from "./fingering_row.js";
import { Roll } from "./piano_roll.js";
import { MediaKeys } from "./media_session.js";
import { Player } from "./player.js";
import { Practice } from "./practice.js";
import { ShownTune } from "./shown_tune.js";
import { Font } from "./sound_font.js";
import { Follower } from "./text_follower.js";
import { Transport } from "./transport.js";
import { TuneBar } from "./tune_bar.js";

/** @typedef {import("../link/finding_rows.js").TuneRow} TuneRow
 * `say` shows a sentence.
 * @typedef {object} Parts
 * @property {import("../link/book_host.js").BookHost} server
 * @property {import("../link/host_link.js").Link} link
 * @property {import("../editor/text_sheet.js").Sheet} sheet
 * @property {import("../link/findings.js").Findings} findings
 * @property {import("../link/tokens_and_plays.js").Seen} seen
 * @property {import("../tunes/caret_tune.js").CaretTune} caretTune
 * @property {import("../base/tooltip.js").Tip} tip
 * @property {(words: string) => void} say */

/** @type {import("./midi_file.js").Score} */
const NO_SCORE = { division: 480, notes: [], tempos: [{ tick: 0, second: 0, each: 0.5 / 480 }], meters: [], bars: [], end: 0, voices: 0, tracks: [] };

export class Music {
  /** @param {Parts} parts */
  constructor({ server, link, sheet, findings, seen, caretTune, tip, say }) {
    this.caretTune = caretTune;
    this.shown = new ShownTune(server, link, findings);
    this.roll = new Roll(find("roll"), /** @type {HTMLCanvasElement} */ (document.querySelector("canvas")));
    this.player = new Player();
    this.player.font = this.font = new Font(server);
    this.follower = new Follower(sheet.text, sheet, this.roll, seen, () => this.shown.inBook);
    const fingering = new FingeringRow((note) => this.follower.noteName(note));
    this.follower.noted = (notes) => fingering.see(notes);
    this.practice = new Practice(this.player, this.roll, this.follower);
    this.transport = new Transport(this.shown, this.player, this.roll, this.follower, this.practice);
    this.player.turned = (score) => this.turned(score);
    /** @type {(score: import("./midi_file.js").Score) => void} */
    this.turned = () => {}; // another score of the player is heard
    this.bar = new TuneBar(this.shown, this.roll, this.follower);
    const acts = { playOrStop: () => this.transport.playOrStop(), step: (/** @type {boolean} */ isForward) => this.transport.step(isForward) };
    this.keys = new MediaKeys(acts, () => ({ title: this.row?.[2] || "abc2midi_live", album: document.title }));
    this.transport.played = (isPlaying) => this.keys.show(isPlaying);
    this.practice.say = say;
    this.player.refused = () => say("The browser lets nothing sound now: play again.");
    this.came = () => {}; // a score is there, or there is none
    this.isOther = false; // the tune that was asked for is another one than that in the roll
    this.shown.asks = (isOther) => {
      seen.want({ tune: this.shown.number ?? null });
      this.transport.rewind(isOther);
      this.isOther ||= isOther;
    };
    seen.hearers.push(() => this.practice.hear());
    this.practice.renewed = () => this.describe();
    this.shown.came = () => this.take();
    this.roll.pointed = (note, event) => tip.show(note ? [this.follower.describe(note)] : [], event);
    this.roll.recoloured = () => {
      this.describe();
      this.practice.silence();
    };
  }

  /** Learns what sounds, and says so. */
  async learn() {
    find("sounds").textContent = await this.font.learn().catch(() => "");
  }

  /** Shows the tune at the caret, unless another one plays. */
  follow() {
    if (!this.player.playing) this.show(this.caretTune.row);
  }

  /** Shows a tune in the roll, or why it has no file.
   * @type {(row: TuneRow | null) => void} */
  show(row) {
    const number = row?.[3] ? row[1] : null;
    this.bar.title(row);
    if (number !== this.shown.number) this.shown.load(number);
    this.bar.explain(row);
  }

  /** Takes the score that came. */
  take() {
    const { shown, player } = this;
    this.practice.show(shown.score, shown.owner);
    if (this.isOther) this.roll.scroller.scrollTo(0, 0);
    this.isOther = false;
    if (player.playing) this.transport.change();
    else this.bar.explain(this.caretTune.row);
    this.describe();
    this.came();
  }

  /** Says what is in the roll. */
  describe() {
    this.bar.describe();
    this.transport.refresh();
  }

  /** Lets keys sound for a quarter note, with the instrument of the last note of the tune.
   * @type {(keys: number[]) => void} */
  touch(keys) {
    const score = this.shown.score ?? NO_SCORE, { program } = score.notes.at(-1) ?? { program: 0 };
    const notes = keys.map((key) => ({ start: 0, end: score.division, key, velocity: 90, program, drum: false, voice: 0 }));
    void this.player.touch(score, notes);
  }

  /** The tune of the score, null if the text has it no more.
   * @returns {TuneRow | null} */
  get row() {
    return this.shown.findings.tunes[this.shown.at] ?? null;
  }

  /** The place among the tunes of the one that is seen: the one that plays, or that of the caret. */
  get seen() {
    return this.player.playing ? this.shown.at : this.caretTune.at;
  }
}
