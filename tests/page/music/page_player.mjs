// Tries the player of the page without a browser, on a sound system that keeps what it is asked for. The folder of the page's
// scripts is the argument. Each test prints a line, `ok` or `FAILED`, with its name.

import { pathToFileURL } from "node:url";

import { run, same } from "../testing.mjs";

const folder = process.argv[2];
const { scoreOf } = await import(pathToFileURL(`${folder}/music/midi_file.js`));
const { Player } = await import(pathToFileURL(`${folder}/music/player.js`));
const { HEARD, SHOWN } = await import(pathToFileURL(`${folder}/music/transposition.js`));

// A quarter note of middle C, and one of D: half a second each.
const FILE = "4D546864 00000006 0001 0002 01E0 4D54726B 00000004 00 FF2F00 4D54726B 00000016 00 903C40 8360 803C40 00 903E40 8360 803E40 00 FF2F00";
const score = scoreOf(Uint8Array.from(FILE.replace(/ /g, "").match(/../g), (digits) => parseInt(digits, 16)).buffer);
const LATE = 0.3; // seconds to the loudspeaker

let clock = 0;
const wait = globalThis.setTimeout;
const later = []; // what is to be done when some time has passed
globalThis.setTimeout = (act, time) => later.push({ act, time });
globalThis.setInterval = () => 1;
globalThis.clearInterval = () => {};
globalThis.document = { addEventListener() {}, hidden: false };

/** A value that changes with time. */
class Param {
  value = 1;
  changes = [];

  setValueAtTime(value, time) {
    this.changes.push(["at", value, time]);
  }

  linearRampToValueAtTime(value, time) {
    this.changes.push(["ramp", value, time]);
  }

  setTargetAtTime() {}
  cancelScheduledValues() {}
}

/** A part of the way to the loudspeaker. */
class Part {
  gain = new Param();
  frequency = new Param();
  to = null;

  connect(to) {
    this.to = to;
    return to;
  }

  disconnect() {
    this.to = null;
  }

  start(time) {
    started.push([this, time]);
  }

  stop() {}
}

let started = [];
globalThis.AudioContext = class {
  outputLatency = 0;
  state = "running";
  destination = new Part();
  createGain = () => new Part();
  createBiquadFilter = () => new Part();
  createDynamicsCompressor = () => new Part();
  createOscillator = () => new Part();

  get currentTime() {
    return clock;
  }

  async resume() {}
};

/** A player at the beginning of the tune, and when its first note starts. */
async function playing(latency = 0) {
  started = [];
  later.length = 0;
  const player = new Player();
  player.endings = 0;
  player.ended = () => (player.endings += 1);
  player.audio.outputLatency = latency;
  await player.play(score);
  return { player, first: started[0][1] };
}

/** Moves the clock to a time. */
function at(player, time) {
  clock = time;
  player.look();
}

/** Whether a part leads to the loudspeaker. */
const leads = (player, part) => part === player.audio.destination || (part !== null && leads(player, part.to));

/** What becomes of a way after now: it fades away, and is taken down after that. */
function assertFades(player, way, now) {
  same([way.gain.changes, leads(player, way)], [[["at", 1, now], ["ramp", 0, now + 0.02]], true]);
  for (const { act, time } of later) same([time > 20 && time < 1000, act()], [true, undefined]);
  same(leads(player, way), false);
}

const tests = {
  async "the first note sounds at most 30 milliseconds after the start"() {
    const begin = clock, { first } = await playing();
    same([first > begin, first <= begin + 0.03], [true, true]);
  },

  async "what sounds fades away when the player stops"() {
    const { player, first } = await playing();
    at(player, first + 0.2);
    const way = player.out;
    player.stop();
    assertFades(player, way, clock);
    same([player.endings, player.playing, leads(player, player.out)], [1, false, true]);
  },

  async "what sounds fades away when the player goes elsewhere, and what follows does not"() {
    const { player, first } = await playing();
    at(player, first + 0.2);
    const way = player.out;
    player.seek(480);
    assertFades(player, way, clock);
    at(player, clock + 0.2);
    const [source] = started.at(-1);
    const through = [];
    for (let part = source; part; part = part.to) through.push(part);
    same([through.includes(player.out), through.includes(way), player.out.gain.changes], [true, false, []]);
  },

  async "the last note dies away"() {
    const { player, first } = await playing();
    const way = player.out;
    at(player, first + 0.5);
    at(player, first + 1.01);
    same([player.endings, player.playing, way.gain.changes, leads(player, way), later.length], [1, false, [], true, 0]);
  },

  async "the cursor is where the sound is heard, and the end too"() {
    const { player, first } = await playing(LATE);
    at(player, first + 0.25);
    same(player.tick, 0);
    at(player, first + 0.25 + LATE);
    same(Math.round(player.tick), 240);
    at(player, first + 1 + LATE / 2);
    same([player.endings, Math.round(player.tick)], [0, Math.round(960 * (1 - LATE / 2))]);
    at(player, first + 1.01 + LATE);
    same(player.endings, 1);
  },

  async "a metronome clicks at each beat once, also when the tempo changes, and not where it was off"() {
    const { player, first } = await playing();
    const beats = [0, 240, 480, 720, 960].map((tick, n) => ({ at: tick, isFirst: n % 2 === 0 }));
    const clicks = () => started.filter(([part]) => part.frequency.value > 1000).map(([part, time]) => [part.frequency.value > 1500, Math.round(1000 * (time - first))]);
    at(player, first + 0.1); // up to 350 milliseconds
    player.metronome = (from, to) => beats.filter((beat) => from <= beat.at && beat.at < to);
    at(player, first + 0.3);
    same(clicks(), [[true, 500]]);
    player.setSpeed(2); // from 550 milliseconds on
    at(player, first + 0.5);
    at(player, first + 0.8);
    same(clicks(), [[true, 500], [false, 650]]);
    player.stop();
  },

  async "each round of a loop is faster, up to twice as fast"() {
    const { player, first } = await playing(), speeds = [];
    player.rise = 0.6;
    player.rose = (speed) => speeds.push(speed);
    player.setLoop([0, 480]);
    for (let time = 0; time < 2; time += 0.05) at(player, first + time);
    const starts = started.map(([, time]) => Math.round(2000 * (time - first)) / 2);
    same([speeds, starts.slice(0, 5)], [[1.6, 2], [0, 500, 812.5, 1062.5, 1312.5]]);
    player.stop();
  },

  async "voices have volumes of their own, and a silent one is not heard"() {
    const { player } = await playing();
    player.setVolumes(new Map([[0, 0.5]]));
    same([player.outOf(0).gain.value, player.outOf(1).gain.value], [0.5, 1]);
    player.setSilent(new Set([0]));
    same(player.outOf(0).gain.value, 0);
    player.setSilent(new Set());
    same(player.outOf(0).gain.value, 0.5);
    player.stop();
    same(player.outOf(0).gain.value, 0.5);
  },

  async "what was stopped while its samples came does not sound, and what was begun again sounds once"() {
    const player = new Player(), loads = [];
    player.ended = () => {};
    player.font = { load: () => new Promise((done) => loads.push(done)), sound: () => null };
    started = [];
    const first = player.play(score);
    await null;
    player.stop();
    const second = player.play(score);
    await null;
    for (const done of loads) done();
    await Promise.all([first, second]);
    same(started.length, 1);
    const touch = player.stop() ?? player.touch(score, score.notes.slice(0, 1));
    await null;
    const third = player.play(score, 480);
    await null;
    player.stop();
    for (const done of loads) done();
    await Promise.all([touch, third]);
    same(started.length, 1);
  },

  async "a sound system that is interrupted stops the tune, and one that never begins is not waited for"() {
    const { player } = await playing(), { audio } = player, refusals = [];
    player.refused = () => refusals.push(player.playing);
    audio.state = "interrupted";
    audio.onstatechange();
    same([player.playing, player.endings], [false, 1]);
    audio.resume = () => new Promise(() => {});
    later.length = 0;
    const played = player.play(score);
    same([player.playing, later.length], [true, 1]);
    same([later[0].time >= 1000, later[0].time <= 5000], [true, true]);
    later[0].act();
    await played;
    same([player.playing, player.endings, refusals], [false, 2, [false]]);
    audio.resume = async () => (audio.state = "running");
    await player.play(score);
    same(player.playing, true);
    player.stop();
    audio.onstatechange();
    same(player.endings, 3);
  },

  async "a telephone plays the tune although it is silenced for calls"() {
    Object.defineProperty(globalThis, "navigator", { value: { audioSession: { type: "auto" } }, configurable: true });
    const { player } = await playing();
    same(navigator.audioSession.type, "playback");
    player.stop();
  },

  async "a transposition moves the notes that are heard, and no others"() {
    const { player, first } = await playing(), pitches = () => started.map(([part]) => Math.round(69 + 12 * Math.log2(part.frequency.value / 440)));
    same(pitches(), [60]);
    player.shift = 3;
    at(player, first + 0.3);
    same(pitches(), [60, 65]);
    player.stop();
    same(score.notes.map(({ key }) => key), [60, 62]);
    player.shift = -61;
    same([player.shifted({ key: 60 }).key, player.shifted({ key: 62 }).key, player.shifted({ key: 60, drum: true }).key], [0, 1, 60]);
  },

  async "a selection ends where it ends, and the next tune to its end"() {
    started = [];
    const player = new Player();
    let endings = 0;
    player.ended = () => (endings += 1);
    await player.play(score, 0, null, 240);
    const first = started[0][1];
    at(player, first + 0.2);
    at(player, first + 0.26);
    same([started.length, endings], [1, 1]);
    await player.play(score);
    at(player, started[1][1] + 0.3);
    same(started.length, 3);
    player.stop();
  },

  async "the tunes of a set follow each other without a gap, and stop at once"() {
    const { player, first } = await playing(), other = { ...score, notes: [...score.notes] }, heard = [];
    player.turned = (one) => heard.push(one === other);
    player.queue = [score, other];
    for (let time = 0; time < 2.9; time += 0.05) at(player, first + time);
    same(started.map(([, time]) => Math.round(1000 * (time - first))), [0, 500, 1000, 1500, 2000, 2500]);
    same([heard, player.queue, player.endings], [[true], [], 0]);
    at(player, first + 3.01);
    same(player.endings, 1);
    const again = await playing();
    again.player.queue = [score];
    again.player.stop();
    same([again.player.queue, again.player.endings], [[], 1]);
  },

  async "a change of a tune of a set is heard in its later rounds"() {
    const { player, first } = await playing(), changed = { ...score, bars: [0, 960] };
    player.queue = [score, score];
    player.change(changed);
    same([player.queue[0] === changed, player.queue[1] === changed], [true, true]);
    for (let time = 0; time < 1.4; time += 0.05) at(player, first + time);
    same([started.length, player.queue.length, player.score === changed], [4, 1, true]);
    player.stop();
  },

  async "a count-in has its numbers, from 1 on in each bar"() {
    started = [];
    const player = new Player(), beats = [0, 480, 960, 1440].map((tick, n) => ({ at: tick, isFirst: n % 3 === 0 }));
    player.ended = () => {};
    await player.play(score, 0, { length: 1920, clicks: beats });
    const first = started[0][1], numbers = [-0.01, 0, 0.4, 0.5, 1.1, 1.5, 1.9, 2.1].map((time) => {
      at(player, first + time);
      return player.counted;
    });
    same(numbers, [0, 1, 1, 2, 3, 1, 1, 0]);
    player.stop();
    same(player.counted, 0);
  },

  "what is heard and what is shown are as far from the text as the instruments sound"() {
    const far = (choices) => Object.fromEntries(choices.map(({ name, semitones }) => [name, semitones]));
    same(far(HEARD), { "": 0, "B♭": -2, "E♭": -9, F: -7, "capo 1": 1, "capo 2": 2, "capo 3": 3, "capo 4": 4, "capo 5": 5, "capo 6": 6, "capo 7": 7 });
    same(far(SHOWN), { "": 0, "B♭": 2, "E♭": 9, F: 7, "capo 1": -1, "capo 2": -2, "capo 3": -3, "capo 4": -4, "capo 5": -5, "capo 6": -6, "capo 7": -7 });
  },

  async "a loop is heard later too"() {
    const { player, first } = await playing(LATE);
    player.setLoop([0, 480]);
    at(player, first + 0.4);
    at(player, first + 0.6);
    same(Math.round(player.tick), Math.round(960 * (0.6 - LATE)));
    at(player, first + 0.6 + LATE);
    same(Math.round(player.tick), Math.round(960 * 0.1));
  },
};

await run(tests);
wait(() => process.exit(0), 0);
