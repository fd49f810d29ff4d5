// What the page says of the tune that is shown: its title, its voices, its file, and why there is nothing to see.

import { find, show, write } from "../base/elements.js";
import { counted } from "../base/plural.js";
import { clock } from "../base/time_format.js";
import { whyNothing } from "../tunes/empty_states.js";
import { midiName } from "../tunes/midi_names.js";
import { secondOf } from "./midi_file.js";
import { nameOf } from "./piano_roll_picture.js";

/** @typedef {import("./midi_file.js").Score} Score
 * @typedef {import("../link/finding_rows.js").TuneRow} TuneRow */

const AWAY = "The notes of this tune are not here while the server is away.";

export class TuneBar {
  /** @param {import("./shown_tune.js").ShownTune} shown
   * @param {import("./piano_roll.js").Roll} roll
   * @param {import("./text_follower.js").Follower} follower */
  constructor(shown, roll, follower) {
    this.shown = shown;
    this.roll = roll;
    this.follower = follower;
  }

  /** Shows the number and the title of a tune.
   * @type {(row: TuneRow | null) => void} */
  title(row) {
    write(find("tune"), row ? `${row[1]} ${row[2]}` : "");
  }

  /** Says why the roll is empty while the caret is in this tune, or before all tunes.
   * @type {(row: TuneRow | null) => void} */
  explain(row) {
    const { score, owner, findings, link } = this.shown;
    const notes = row?.[3] && row[1] === owner && score ? score.notes.length : null;
    const isAway = notes === null && !score && link.away;
    const why = whyNothing({ lines: findings.text.lines, rows: findings.tunes, faults: findings.faults, row, notes }) || (isAway ? AWAY : "");
    write(find("empty"), why);
    show(find("empty"), Boolean(why));
  }

  /** Says what is in the roll. */
  describe() {
    const { score } = this.shown;
    this.link();
    find("roll").setAttribute("aria-label", score ? this.label(score) : "No tune is here");
    const voices = Array.from({ length: score && score.voices > 1 ? score.voices : 0 }, (_, voice) => this.voice(voice));
    find("voices").replaceChildren(...voices);
  }

  /** Links to the file, while the server is there. */
  link() {
    const { score, owner, findings, server, link } = this.shown, midi = find("midi");
    const title = findings.tunes[findings.ownerOf(owner)]?.[2] ?? "";
    if (score && owner !== null && !link.away) Object.assign(midi, { href: server.address(`midi/${owner}`), download: midiName(owner, title) });
    else midi.removeAttribute("href");
  }

  /** The roll in words.
   * @type {(score: Score) => string} */
  label(score) {
    const { roll } = this, { voices } = score;
    const range = score.notes.length ? `, from ${nameOf(roll.lowest)} to ${nameOf(roll.highest)}` : "";
    const counts = `${counted(voices, "voice")}, ${roll.grid?.count} bars`;
    return `Piano roll of tune ${this.shown.number}: ${counts}, ${clock(secondOf(score, score.end))}${range}`;
  }

  /** The colour and the name of a voice.
   * @type {(voice: number) => HTMLElement} */
  voice(voice) {
    const swatch = document.createElement("i"), name = document.createElement("span");
    swatch.style.background = this.roll.colour(voice);
    name.append(swatch, this.follower.voiceName(voice));
    return name;
  }
}
