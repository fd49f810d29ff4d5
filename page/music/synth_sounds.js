// The sounds of the player, made by Web Audio.

/** @typedef {import("./midi_file.js").Note} Note
 * @typedef {{ wave: OscillatorType, rise: number, sink: number, left: number, die: number, bright: number }} Kind
 * @typedef {{ off: number, endAt: (time: number) => void }} Sound when a note ends, and what lets it end at another time */

// A handful of plain sounds: wave, seconds to rise, seconds to sink, what is left then, seconds to die away, brightness.
/** @type {Kind} */
const PLUCKED = { wave: "triangle", rise: 0.005, sink: 0.9, left: 0.08, die: 0.12, bright: 8 };
/** @type {Kind} */
const BELL = { wave: "sine", rise: 0.003, sink: 1.2, left: 0.02, die: 0.3, bright: 12 };
/** @type {Kind} */
const ORGAN = { wave: "square", rise: 0.02, sink: 0.1, left: 0.5, die: 0.06, bright: 4 };
/** @type {Kind} */
const BOWED = { wave: "sawtooth", rise: 0.06, sink: 0.2, left: 0.6, die: 0.15, bright: 4 };
/** @type {Kind} */
const BLOWN = { wave: "sawtooth", rise: 0.03, sink: 0.15, left: 0.6, die: 0.08, bright: 5 };
/** @type {Kind} */
const PIPE = { wave: "sine", rise: 0.04, sink: 0.1, left: 0.85, die: 0.1, bright: 9 };
/** @type {Kind} */
const BASS = { wave: "triangle", rise: 0.008, sink: 0.7, left: 0.2, die: 0.1, bright: 5 };
// By program family: eight programs of General MIDI each.
const SOUNDS = [
  PLUCKED, BELL, ORGAN, PLUCKED, BASS, BOWED, BOWED, BLOWN, BLOWN, PIPE, ORGAN, BOWED, BOWED, PLUCKED, BELL, PIPE,
];
const CLICK = { first: 1568, other: 1174.66, lasts: 0.03 }; // hertz, seconds

/** Sounds a note from a time to a time, through an output: when it ends, and what lets it end at another time.
 * @type {(audio: BaseAudioContext, note: Note, from: number, end: number, out: AudioNode) => Sound} */
export function soundNote(audio, note, from, end, out) {
  const { wave, rise, sink, left, die, bright } = SOUNDS[note.program >> 3];
  const loud = 0.3 * (note.velocity / 127) ** 1.5;
  const gain = audio.createGain(), filter = audio.createBiquadFilter(), source = audio.createOscillator();
  const pitch = 440 * 2 ** ((note.key - 69) / 12);
  source.type = note.drum ? "square" : wave;
  source.frequency.value = pitch;
  filter.type = "lowpass";
  filter.frequency.value = Math.min(16000, pitch * bright + 400);
  gain.gain.setValueAtTime(0, from);
  gain.gain.linearRampToValueAtTime(loud, from + rise);
  gain.gain.setTargetAtTime(loud * left, from + rise, (note.drum ? 0.05 : sink) / 2);
  source.connect(filter).connect(gain).connect(out);
  source.start(from);
  const sound = {
    off: Infinity,
    /** @param {number} time */
    endAt(time) {
      if (sound.off < Infinity) gain.gain.cancelScheduledValues(sound.off);
      sound.off = Math.max(time, from + rise);
      gain.gain.setTargetAtTime(0, sound.off, die / 3);
      source.stop(sound.off + 2 * die);
    },
  };
  sound.endAt(end);
  return sound;
}

/** Sounds a click of a count-in.
 * @type {(audio: BaseAudioContext, time: number, isFirst: boolean, out: AudioNode) => void} */
export function soundClick(audio, time, isFirst, out) {
  const gain = audio.createGain(), source = audio.createOscillator();
  source.frequency.value = isFirst ? CLICK.first : CLICK.other;
  gain.gain.setValueAtTime(isFirst ? 0.35 : 0.2, time);
  gain.gain.setTargetAtTime(0, time + CLICK.lasts, CLICK.lasts);
  source.connect(gain).connect(out);
  source.start(time);
  source.stop(time + 8 * CLICK.lasts);
}
