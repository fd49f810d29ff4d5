// The instruments of the server's SoundFont. What a tune needs of them is read when it is played first.

import { isIn, soundSample } from "./sampled_sounds.js";

/** @typedef {import("./midi_file.js").Note} Note
 * @typedef {import("./sampled_sounds.js").Zone} Zone
 * @typedef {import("./synth_sounds.js").Sound} Sound */

const INSTALL = "sudo apt install timgm6mb-soundfont";
const PATIENCE = 1500; // milliseconds that a tune waits for its samples
const MOST = 1 << 24; // samples that are kept

export class Font {
  /** @param {{ ask: (name: string) => Promise<any>, bytes: (name: string) => Promise<ArrayBuffer | null> }} server */
  constructor(server) {
    this.server = server;
    this.name = ""; // "" if there is none
    /** @type {Map<number, Zone[]>} */
    this.zones = new Map(); // by program
    /** @type {Map<number, AudioBuffer>} */
    this.buffers = new Map(); // by the place of the sample, those that were used last at the end
  }

  /** Learns which font the server has; a line for people on what sounds. */
  async learn() {
    const { name, isPlain } = await this.server.ask("font");
    this.name = name;
    return name ? `Instruments of ${name}.` : isPlain ? "Plain sounds." : `Plain sounds. For sampled ones: ${INSTALL}`;
  }

  /** Reads what notes need, for a while at most. What is not there then sounds plain, and may come later.
   * @type {(audio: BaseAudioContext, notes: Note[]) => Promise<void>} */
  async load(audio, notes) {
    await Promise.race([new Promise((done) => setTimeout(done, PATIENCE)), this.loadAll(audio, notes)]);
  }

  /** Reads what notes need, however long that takes.
   * @type {(audio: BaseAudioContext, notes: Note[]) => Promise<void>} */
  async loadAll(audio, notes) {
    if (this.name) await this.read(audio, notes).catch(() => {});
  }

  /** @type {(audio: BaseAudioContext, notes: Note[]) => Promise<void>} */
  async read(audio, notes) {
    for (const program of new Set(notes.map((note) => note.program))) {
      if (!this.zones.has(program)) this.zones.set(program, (await this.server.ask(`font/${program}`)).zones);
    }
    const needed = new Map(notes.flatMap((note) => this.zonesOf(note)).map((zone) => [zone.start, zone]));
    await Promise.all([...needed.values()].map((zone) => this.readSample(audio, zone)));
    this.forget(needed);
  }

  /** @type {(audio: BaseAudioContext, zone: Zone) => Promise<void>} */
  async readSample(audio, { start, stop, rate }) {
    const known = this.buffers.get(start), bytes = known ? null : await this.server.bytes(`samples/${start}/${stop}`);
    const buffer = known ?? (bytes && bytes.byteLength > 1 ? bufferOf(audio, bytes, rate) : null);
    this.buffers.delete(start);
    if (buffer) this.buffers.set(start, buffer);
  }

  /** Forgets the samples that were not used for long, if there are too many.
   * @type {(needed: Map<number, Zone>) => void} */
  forget(needed) {
    let count = [...this.buffers.values()].reduce((sum, { length }) => sum + length, 0);
    for (const [start, { length }] of this.buffers) {
      if (count <= MOST || needed.has(start)) return;
      this.buffers.delete(start);
      count -= length;
    }
  }

  /** The zones by which a note sounds.
   * @type {(note: Note) => Zone[]} */
  zonesOf(note) {
    return note.drum ? [] : (this.zones.get(note.program) ?? []).filter((zone) => isIn(zone, note));
  }

  /** Sounds a note from a time to a time; null if its samples are not there.
   * @type {(audio: BaseAudioContext, note: Note, from: number, end: number, out: AudioNode) => Sound | null} */
  sound(audio, note, from, end, out) {
    const zones = this.zonesOf(note);
    const found = zones.flatMap((zone) => {
      const buffer = this.buffers.get(zone.start);
      return buffer ? [{ zone, buffer }] : [];
    });
    if (!found.length || found.length < zones.length) return null;
    return together(found.map(({ zone, buffer }) => soundSample(audio, zone, buffer, note, from, end, out)));
  }
}

/** Several sounds as one.
 * @type {(sounds: Sound[]) => Sound} */
function together(sounds) {
  const all = {
    off: Math.max(...sounds.map(({ off }) => off)),
    endAt(/** @type {number} */ time) {
      for (const sound of sounds) sound.endAt(time);
      all.off = Math.max(...sounds.map(({ off }) => off));
    },
  };
  return all;
}

/** Samples of two bytes each as the sound system has them.
 * @type {(audio: BaseAudioContext, bytes: ArrayBuffer, rate: number) => AudioBuffer} */
function bufferOf(audio, bytes, rate) {
  const view = new DataView(bytes), buffer = audio.createBuffer(1, bytes.byteLength >> 1, rate), numbers = buffer.getChannelData(0);
  for (let n = 0; n < numbers.length; n += 1) numbers[n] = view.getInt16(2 * n, true) / 32768;
  return buffer;
}
