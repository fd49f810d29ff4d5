// A tune as a sound, as it is heard: at the tempo, with the volumes and without the silent voices of the player.

import { secondOf } from "./midi_file.js";
import { outletOf } from "./player.js";
import { stopped } from "./sound_files.js";
import { soundNote } from "./synth_sounds.js";

/** @typedef {import("./midi_file.js").Score} Score
 * @typedef {import("./player.js").Player} Player */

const RATE = 44100;
const TAIL = 1.5; // seconds in which the last notes die away
const MOST = 1200; // seconds
const EVERY = 5; // seconds of the sound between two looks at what is done

/** The sound of a tune. Throws if the tune is too long, or the making is stopped.
 * @type {(score: Score, player: Player, making: import("./sound_files.js").Making) => Promise<AudioBuffer>} */
export async function recorded(score, player, { signal, progress }) {
  const seconds = secondOf(score, score.end) / player.speed + TAIL;
  if (seconds > MOST) throw new Error("the tune is longer than 20 minutes");
  const audio = new OfflineAudioContext(2, Math.ceil(seconds * RATE), RATE), end = stopped(signal);
  await Promise.race([end, player.font?.loadAll(audio, score.notes.map((note) => player.shifted(note)))]);
  soundAll(audio, score, player);
  for (let at = EVERY; at < seconds && "suspend" in audio; at += EVERY) {
    const look = () => {
      progress(at / seconds);
      if (!signal.aborted) void audio.resume(); // else the browser makes no more of it
    };
    audio.suspend(at).then(look, () => {});
  }
  return Promise.race([end, audio.startRendering()]);
}

/** Sounds all notes of a tune.
 * @type {(audio: BaseAudioContext, score: Score, player: Player) => void} */
export function soundAll(audio, score, player) {
  const out = outletOf(audio), ways = Array.from({ length: score.voices }, (_, voice) => wayOf(audio, player.volumeOf(voice), out));
  for (const written of score.notes) {
    const note = player.shifted(written);
    const from = secondOf(score, note.start) / player.speed, end = secondOf(score, note.end) / player.speed, way = ways[note.voice];
    if (!player.font?.sound(audio, note, from, end, way)) soundNote(audio, note, from, end, way);
  }
}

/** The way of the notes of a voice.
 * @type {(audio: BaseAudioContext, volume: number, out: AudioNode) => AudioNode} */
function wayOf(audio, volume, out) {
  const gain = audio.createGain();
  gain.gain.value = volume;
  gain.connect(out);
  return gain;
}
