// The sound of a note from samples, made by Web Audio.

/** How a sample sounds: for which keys and velocities, its place among the samples of the font, its loop in samples, its rate, the key
 * that it was played at, cents that it is higher, cents of a key, how much softer it is, left to right from -1 to 1, the seconds of its
 * parts, decibels that it sinks, and the frequency above which it is muffled: first, later, and the seconds between.
 * @typedef {object} Zone
 * @property {[low: number, high: number]} keys
 * @property {[low: number, high: number]} velocities
 * @property {number} start
 * @property {number} stop
 * @property {[from: number, to: number] | null} loop
 * @property {number} rate
 * @property {number} root
 * @property {number} cents
 * @property {number} scale
 * @property {number} decibels
 * @property {number} pan
 * @property {number} attack
 * @property {number} hold
 * @property {number} decay
 * @property {number} sustain
 * @property {number} release
 * @property {[first: number, later: number, seconds: number] | null} filter */
/** @typedef {import("./midi_file.js").Note} Note
 * @typedef {import("./synth_sounds.js").Sound} Sound */

const LOUD = 0.5, POWER = 1.5; // of a note of the velocity 127; by which power softer ones are softer
const FALL = Math.log(1e5); // a decay or a release falls by 100 decibels
const LEAST = 0.02, MOST = 2; // seconds of a release: a shorter one clicks

/** Whether a note sounds by a zone.
 * @type {(zone: Zone, note: { key: number, velocity: number }) => boolean} */
export function isIn({ keys, velocities }, { key, velocity }) {
  return keys[0] <= key && key <= keys[1] && velocities[0] <= velocity && velocity <= velocities[1];
}

/** Sounds a note by a sample from a time to a time, through an output.
 * @type {(audio: BaseAudioContext, zone: Zone, buffer: AudioBuffer, note: Note, from: number, end: number, out: AudioNode) => Sound} */
export function soundSample(audio, zone, buffer, note, from, end, out) {
  const source = sourceOf(audio, zone, buffer, note), gain = audio.createGain();
  const loud = LOUD * (note.velocity / 127) ** POWER * loudness(-zone.decibels), rise = Math.max(zone.attack, 0.002);
  gain.gain.setValueAtTime(0, from);
  gain.gain.linearRampToValueAtTime(loud, from + rise);
  gain.gain.setTargetAtTime(loud * loudness(-zone.sustain), from + rise + zone.hold, zone.decay / FALL);
  const way = zone.filter ? source.connect(filterOf(audio, zone.filter, from)) : source;
  way.connect(gain).connect(pannerOf(audio, zone.pan)).connect(out);
  source.start(from);
  const release = Math.max(LEAST, Math.min(MOST, zone.release));
  const sound = {
    off: Infinity,
    /** @param {number} time */
    endAt(time) {
      if (sound.off < Infinity) gain.gain.cancelScheduledValues(sound.off);
      sound.off = Math.max(time, from + rise);
      gain.gain.setTargetAtTime(0, sound.off, release / FALL);
      source.stop(sound.off + release);
    },
  };
  sound.endAt(end);
  return sound;
}

/** @type {(decibels: number) => number} */
const loudness = (decibels) => 10 ** (decibels / 20);

/** The sample at the pitch of a note.
 * @type {(audio: BaseAudioContext, zone: Zone, buffer: AudioBuffer, note: Note) => AudioBufferSourceNode} */
function sourceOf(audio, { loop, rate, root, cents, scale }, buffer, { key }) {
  const source = audio.createBufferSource();
  source.buffer = buffer;
  source.playbackRate.value = 2 ** (((key - root) * scale + cents) / 1200);
  if (loop) [source.loop, source.loopStart, source.loopEnd] = [true, loop[0] / rate, loop[1] / rate];
  return source;
}

/** @type {(audio: BaseAudioContext, filter: [first: number, later: number, seconds: number], from: number) => BiquadFilterNode} */
function filterOf(audio, [first, later, seconds], from) {
  const filter = audio.createBiquadFilter();
  filter.type = "lowpass";
  filter.frequency.setValueAtTime(first, from);
  filter.frequency.exponentialRampToValueAtTime(later, from + seconds);
  return filter;
}

/** @type {(audio: BaseAudioContext, pan: number) => StereoPannerNode} */
function pannerOf(audio, pan) {
  const panner = audio.createStereoPanner();
  panner.pan.value = pan;
  return panner;
}
