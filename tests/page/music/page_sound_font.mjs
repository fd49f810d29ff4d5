// Tries the sampled instruments of the page without a browser, on a sound system that keeps what it is asked for. The folder of the
// page's scripts is the argument. Each test prints a line, `ok` or `FAILED`, with its name.

import { pathToFileURL } from "node:url";

import { run, same } from "../testing.mjs";

const from = (name) => import(pathToFileURL(`${process.argv[2]}/${name}.js`));
const { Font } = await from("music/sound_font");
const { isIn, soundSample } = await from("music/sampled_sounds");

/** A value, and what it becomes when. */
class Param {
  value = 0;
  changes = [];
  setValueAtTime = (value, time) => this.changes.push(["at", value, time]);
  linearRampToValueAtTime = (value, time) => this.changes.push(["ramp", value, time]);
  exponentialRampToValueAtTime = (value, time) => this.changes.push(["curve", value, time]);
  setTargetAtTime = (value, time, each) => this.changes.push(["to", value, time, each]);
  cancelScheduledValues = (time) => this.changes.push(["cancel", time]);
}

/** A part of the way to the loudspeaker. */
class Part {
  gain = new Param();
  frequency = new Param();
  playbackRate = new Param();
  pan = new Param();
  loop = false;
  times = [];
  connect = (to) => (this.to = to);
  start = (time) => this.times.push(time);
  stop = (time) => this.times.push(time);
}

const made = []; // the sources
const audio = {
  createGain: () => new Part(),
  createBiquadFilter: () => new Part(),
  createStereoPanner: () => new Part(),
  createBufferSource: () => made[made.push(new Part()) - 1],
  createBuffer: (channels, length, rate) => ({ channels, length, rate, numbers: new Float32Array(length), getChannelData() { return this.numbers; } }),
};
const ZONE = { keys: [0, 127], velocities: [0, 127], start: 0, stop: 4, loop: null, rate: 8000, root: 60, cents: 0, scale: 100, decibels: 0, pan: 0, attack: 0.01, hold: 0, decay: 1, sustain: 0, release: 0.5, filter: null };
const note = (key, velocity = 127, program = 5) => ({ key, velocity, program, drum: false, voice: 0, start: 0, end: 1 });
const rounded = (number) => Math.round(1e6 * number) / 1e6;

/** A font with zones by program, and what is asked of its server. */
function fontOf(programs, count = 4) {
  const asked = [];
  const server = {
    ask: async (name) => asked.push(name) && (name === "font" ? { name: "hand", isPlain: false } : { zones: programs[name.split("/")[1]] ?? [] }),
    bytes: async (name) => asked.push(name) && new Int16Array(count).fill(16384).buffer,
  };
  return { asked, font: new Font(server) };
}

const tests = {
  "a zone has keys and velocities"() {
    const zone = { ...ZONE, keys: [60, 69], velocities: [100, 127] };
    same([[60, 100], [69, 127], [59, 100], [70, 100], [60, 99]].map(([key, velocity]) => isIn(zone, { key, velocity })), [true, true, false, false, false]);
  },

  "a sample is played at the pitch of its note"() {
    for (const [zone, key, rate] of [[{}, 60, 1], [{}, 72, 2], [{ cents: -1200 }, 60, 0.5], [{ scale: 0 }, 90, 1], [{ root: 48, cents: 1200 }, 60, 4]]) {
      soundSample(audio, { ...ZONE, ...zone }, {}, note(key), 1, 2, new Part());
      same(rounded(made.at(-1).playbackRate.value), rate);
    }
  },

  "a loop is in seconds, and a note ends after its release"() {
    const sound = soundSample(audio, { ...ZONE, loop: [800, 1600] }, {}, note(60), 1, 2, new Part()), source = made.at(-1);
    same([source.loop, source.loopStart, source.loopEnd, source.times], [true, 0.1, 0.2, [1, 2.5]]);
    sound.endAt(3);
    same([sound.off, source.times], [3, [1, 2.5, 3.5]]);
  },

  "a softer note and a softer zone are softer, and what is muffled gets duller"() {
    const way = (zone, velocity) => {
      soundSample(audio, { ...ZONE, ...zone }, {}, note(60, velocity), 1, 2, new Part());
      return made.at(-1).to;
    };
    const loud = (part) => rounded(part.gain.changes.find(([how]) => how === "ramp")[1]);
    same([loud(way({}, 127)), loud(way({ decibels: 20 }, 127)), loud(way({}, 64)) < 0.2], [0.5, 0.05, true]);
    same(way({ filter: [2000, 400, 3] }, 127).frequency.changes, [["at", 2000, 1], ["curve", 400, 4]]);
  },

  async "what a tune needs is read once"() {
    const { asked, font } = fontOf({ 5: [{ ...ZONE, keys: [0, 64] }, { ...ZONE, keys: [65, 127], start: 4, stop: 8 }] });
    same(await font.learn(), "Instruments of hand.");
    same(font.sound(audio, note(60), 0, 1, new Part()), null);
    await font.load(audio, [note(60), note(62), note(60, 9)]);
    same(asked, ["font", "font/5", "samples/0/4"]);
    same([...font.buffers.get(0).numbers], [0.5, 0.5, 0.5, 0.5]);
    await font.load(audio, [note(60), note(70)]);
    same(asked.slice(3), ["samples/4/8"]);
    same([font.sound(audio, note(60), 0, 1, new Part()).off, font.sound(audio, note(60, 99, 6), 0, 1, new Part())], [1, null]);
  },

  async "a tune waits for its samples for a moment, and a sound file as long as they take"() {
    const { font } = fontOf({ 5: [ZONE] }), { bytes } = font.server, wait = globalThis.setTimeout;
    let come = () => {};
    font.server.bytes = (name) => new Promise((done) => (come = () => done(bytes(name))));
    await font.learn();
    globalThis.setTimeout = (act, time) => wait(act, time / 100);
    await font.load(audio, [note(60)]);
    globalThis.setTimeout = wait;
    same(font.sound(audio, note(60), 0, 1, new Part()), null);
    let isThere = false;
    const all = font.loadAll(audio, [note(60)]).then(() => (isThere = true));
    await new Promise((done) => wait(done, 30));
    same(isThere, false);
    come();
    await all;
    same([isThere, font.sound(audio, note(60), 0, 1, new Part()).off], [true, 1]);
  },

  async "samples that were not used for long are forgotten"() {
    const count = 1 << 23, zones = (start) => [{ ...ZONE, start, stop: start + count }], { font } = fontOf({ 1: zones(1), 2: zones(2), 3: zones(3) }, count);
    await font.learn();
    for (const program of [1, 2, 1, 3]) await font.load(audio, [note(60, 99, program)]);
    same([...font.buffers.keys()], [1, 3]);
  },

  async "without a font, or a server, the sounds are plain"() {
    const font = new Font({ ask: async () => ({ name: "", isPlain: false }) });
    same(await font.learn(), "Plain sounds. For sampled ones: sudo apt install timgm6mb-soundfont");
    await font.load(audio, [note(60)]);
    const away = new Font({ ask: () => Promise.reject(new Error("away")) });
    away.name = "hand";
    await away.load(audio, [note(60)]);
    same([font.sound(audio, note(60), 0, 1, new Part()), away.sound(audio, note(60), 0, 1, new Part())], [null, null]);
  },
};

await run(tests);
process.exit(0);
