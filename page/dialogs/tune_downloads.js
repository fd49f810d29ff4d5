// The tune that is shown as files for other programs: its sound, and its score. A sound takes a while: it can be stopped.

import { download } from "../base/download.js";
import { button, find, show, write } from "../base/elements.js";
import { opusFormat, recordOf, wavOf } from "../music/sound_files.js";
import { recorded } from "../music/tune_recording.js";
import { svgOf } from "../score/score_svg.js";
import { fileName } from "../tunes/midi_names.js";

/** @typedef {import("../link/finding_rows.js").TuneRow} TuneRow
 * `say` shows a sentence, `close` closes the dialog.
 * @typedef {object} Parts
 * @property {import("../music/music_panel.js").Music} music
 * @property {import("../score/score_view.js").Score} staves
 * @property {(words: string) => void} say
 * @property {() => void} close */

const RENDERED = { wav: 0.8, opus: 0.1 }; // the part of the work after which the sound is there, but no file

export class TuneFiles {
  /** @param {Parts} parts */
  constructor(parts) {
    this.parts = parts;
    this.opus = opusFormat();
    /** @type {AbortController | null} */
    this.making = null; // stops the sound that is made
    button("tune-sound").addEventListener("click", () => void this.sound(false));
    button("tune-opus").addEventListener("click", () => void this.sound(true));
    button("tune-score").addEventListener("click", () => this.score());
    button("making-stop").addEventListener("click", () => this.making?.abort());
    show(button("tune-opus"), this.opus !== null);
  }

  /** Shows which files there are. */
  show() {
    const { music, staves } = this.parts, hasSound = music.row && music.shown.score && !this.making;
    for (const name of ["tune-sound", "tune-opus"]) button(name).disabled = !hasSound;
    button("tune-score").disabled = !music.row || !staves.notes.length;
  }

  /** Stores the sound of the tune, as a record if it is to be small.
   * @type {(isSmall: boolean) => Promise<void>} */
  async sound(isSmall) {
    const { music, say, close } = this.parts, tune = music.row, { score } = music.shown;
    close();
    if (!tune || !score || this.making) return;
    const control = (this.making = new AbortController());
    this.showMaking(0);
    try {
      const made = await this.made(score, isSmall, control.signal);
      this.store(made.file, tune, made.ending);
    } catch (error) {
      say(control.signal.aborted ? "Stopped: there is no sound file." : `There is no sound file: ${/** @type {Error} */ (error).message}.`);
    }
    this.making = null;
    show(find("making"), false);
    this.show();
  }

  /** The file of a sound, and how its name ends.
   * @type {(score: import("../music/midi_file.js").Score, isSmall: boolean, signal: AbortSignal) => Promise<{ file: Blob, ending: string }>} */
  async made(score, isSmall, signal) {
    const { player } = this.parts.music, small = isSmall ? this.opus : null, rendered = small ? RENDERED.opus : RENDERED.wav;
    const part = (/** @type {number} */ from, /** @type {number} */ to) => ({ signal, progress: (/** @type {number} */ done) => this.showMaking(from + (to - from) * done) });
    const sound = await recorded(score, player, part(0, rendered)), rest = part(rendered, 1);
    if (!small) return { file: await wavOf(sound, rest), ending: "wav" };
    if (!(await player.resume())) throw new Error("the browser lets nothing sound now");
    return { file: await recordOf(player.audio, sound, small, rest), ending: small.ending };
  }

  /** Shows which part of a sound is made.
   * @type {(part: number) => void} */
  showMaking(part) {
    this.show();
    show(find("making"), true);
    /** @type {HTMLProgressElement} */ (find("making-part")).value = part;
    write(find("making-words"), `Sound: ${Math.floor(100 * part)} %`);
  }

  /** Stores the score of the tune. */
  score() {
    const { music, staves, close } = this.parts, tune = music.row;
    close();
    if (!tune || !staves.pages.length) return;
    for (const page of staves.pages) page.fill();
    this.store(new Blob([svgOf(staves.pages.map(({ element }) => element))], { type: "image/svg+xml" }), tune, "svg");
  }

  /** @type {(content: Blob, tune: TuneRow, ending: string) => void} */
  store(content, [, number, title], ending) {
    const name = fileName(number, title, ending);
    download(content, name);
    this.parts.say(`Stored ${name}.`);
  }
}
