// Tries the files of a tune, without a browser. The folder of the page's scripts is the argument. Each test prints a line, `ok` or
// `FAILED`, with its name.

import { pathToFileURL } from "node:url";

import { run, same } from "../testing.mjs";

const from = (name) => import(pathToFileURL(`${process.argv[2]}/${name}.js`));
globalThis.document = { addEventListener() {}, hidden: false };
const { fileName } = await from("tunes/midi_names");
const { pathOf } = await from("dialogs/qr_code");
const { opusFormat, recordOf, wavOf } = await from("music/sound_files");
const { recorded, soundAll } = await from("music/tune_recording");
const { wavHead, wavNumbers } = await from("music/wav_file");

const words = (bytes, from, to) => String.fromCharCode(...new Uint8Array(bytes).slice(from, to));
const TEMPOS = [{ tick: 0, second: 0, each: 0.01 }];
const note = (start, end, voice) => ({ start, end, key: 69, velocity: 127, program: 0, drum: false, voice });
const SCORE = { division: 100, notes: [note(0, 100, 0), note(100, 200, 1)], tempos: TEMPOS, meters: [], bars: [], end: 200, voices: 2, tracks: [] };

/** A part of the way to the loudspeaker. */
class Part {
  gain = { value: 1, setValueAtTime() {}, linearRampToValueAtTime() {}, setTargetAtTime() {}, cancelScheduledValues() {} };
  frequency = { value: 0 };
  connect = (to) => (this.to = to);
  start = (time) => started.push([time, this]);
  stop() {}
}

const started = [];
const audio = { destination: new Part(), createGain: () => new Part(), createBiquadFilter: () => new Part(), createDynamicsCompressor: () => new Part(), createOscillator: () => new Part() };
const player = (more = {}) => ({ speed: 1, font: null, volumeOf: () => 1, shifted: (note) => note, ...more });

const making = (control = new AbortController(), progress = () => {}) => ({ signal: control.signal, progress });
const soundOf = (length) => ({ numberOfChannels: 2, sampleRate: 44100, length, duration: length / 44100, copyFromChannel() {} });

/** A sound system that waits where it was told to. */
class Offline {
  static resumed = 0;
  destination = new Part();
  createGain = audio.createGain;
  createBiquadFilter = audio.createBiquadFilter;
  createDynamicsCompressor = audio.createDynamicsCompressor;
  createOscillator = audio.createOscillator;
  looks = [];

  constructor(_, length) {
    this.length = length;
  }

  suspend(at) {
    return new Promise((then) => this.looks.push([at, then]));
  }

  async startRendering() {
    for (const [, then] of this.looks) {
      await new Promise((next) => {
        this.resume = async () => next((Offline.resumed += 1));
        then();
      });
    }
    return { length: this.length };
  }
}

/** A worker that keeps what it is asked. */
class Writer {
  asked = [];
  isEnded = false;

  constructor(answer = "message") {
    this.answer = answer;
  }

  postMessage(message) {
    this.asked.push(message.channels ? message.channels[0].length : message);
    setTimeout(() => (this.answer === "error" ? this.onerror() : this.onmessage({ data: message.isEnd ? { file: "file" } : {} })));
  }

  terminate() {
    this.isEnded = true;
  }
}

/** What records, of one format. */
class Recorder {
  static isTypeSupported = (type) => type.startsWith("audio/webm");
  state = "inactive";

  start() {
    this.state = "recording";
    Recorder.last = this;
    this.ondataavailable({ data: new Blob(["one"]) });
  }

  stop() {
    this.state = "inactive";
    this.ondataavailable({ data: new Blob(["two"]) });
    this.onstop();
  }
}

/** A sound system with a source that is heard nowhere. */
function tapeOf() {
  const log = [], note = (name) => () => log.push(name), source = { connect() {}, start: note("start"), stop: note("stop"), disconnect: note("disconnect") };
  return { log, source, createBufferSource: () => source, createMediaStreamDestination: () => ({ stream: {} }) };
}

const tests = {
  "a file has a head, and the numbers of its channels in turn"() {
    const bytes = wavHead(2, 8000, 3), view = new DataView(bytes);
    same([words(bytes, 0, 4), words(bytes, 8, 16), words(bytes, 36, 40), bytes.byteLength], ["RIFF", "WAVEfmt ", "data", 44]);
    same([4, 16, 24, 28, 40].map((at) => view.getUint32(at, true)), [48, 16, 8000, 32000, 12]);
    same([20, 22, 32, 34].map((at) => view.getUint16(at, true)), [1, 2, 4, 16]);
    const numbers = new DataView(wavNumbers([Float32Array.of(0, 1, -1), Float32Array.of(0.5, 2, -2)]));
    same([0, 2, 4, 6, 8, 10].map((at) => numbers.getInt16(at, true)), [0, 16384, 32767, 32767, -32767, -32767]);
  },

  "notes sound at the tempo of the player"() {
    started.length = 0;
    soundAll(audio, SCORE, player({ speed: 2 }));
    same(started.map(([time]) => time), [0, 0.5]);
  },

  "voices have their volumes, and what the font has sounds by it"() {
    started.length = 0;
    const sampled = [], font = { sound: (_, { voice }, from, end, way) => voice === 0 && sampled.push([from, end, way.gain.value]) };
    soundAll(audio, SCORE, player({ font, volumeOf: (voice) => (voice ? 0 : 0.25) }));
    const last = (part) => (part.to === undefined ? part : last(part.to));
    same([sampled, started.length, last(started[0][1]) === audio.destination], [[[0, 1, 0.25]], 1, true]);
    same(started[0][1].to.to.to.gain.value, 0);
  },

  async "a tune that is too long has no file"() {
    const why = await recorded({ ...SCORE, end: 130_000 }, player(), making()).catch(({ message }) => message);
    same(why, "the tune is longer than 20 minutes");
  },

  async "a sound says what is done, and stops in the middle"() {
    const done = [], control = new AbortController(), work = making(control, (part) => done.push(part));
    globalThis.OfflineAudioContext = Offline;
    same((await recorded({ ...SCORE, end: 1850 }, player(), work)).length, 882_000);
    same(done, [0.25, 0.5, 0.75]);
    const stopping = { ...work, progress: (part) => part > 0.4 && control.abort() }, begun = Offline.resumed;
    same(await recorded({ ...SCORE, end: 1850 }, player(), stopping).catch(({ message }) => message), "it was stopped");
    same(Offline.resumed - begun, 1);
  },

  async "a worker gets the sound part by part, and gives the file"() {
    const worker = new Writer(), done = [], sound = soundOf(900_000);
    same(await wavOf(sound, making(undefined, (part) => done.push(part)), () => worker), "file");
    same(worker.asked, [{ head: [2, 44100, 900_000] }, 441_000, 441_000, 18_000, { isEnd: true }]);
    same([done, worker.isEnded], [[0.49, 0.98, 1], true]);
  },

  async "a worker that is stopped ends, and so does one that does not begin"() {
    const control = new AbortController(), worker = new Writer();
    same(await wavOf(soundOf(900_000), making(control, () => control.abort()), () => worker).catch(({ message }) => message), "it was stopped");
    same([worker.isEnded, worker.asked.length], [true, 3]);
    const lost = new Writer("error");
    same(await wavOf(soundOf(1), making(), () => lost).catch(({ message }) => message), "a part of the page did not come");
    same(lost.isEnded, true);
  },

  async "a record lasts as long as the sound, and has what was recorded"() {
    same(opusFormat(), null);
    globalThis.MediaRecorder = Recorder;
    same(opusFormat(), { type: "audio/webm;codecs=opus", ending: "webm" });
    const tape = tapeOf(), made = recordOf(tape, soundOf(44100), opusFormat(), making());
    tape.source.onended();
    const file = await made;
    same([await file.text(), file.type, tape.log], ["onetwo", "audio/webm", ["start", "stop", "disconnect"]]);
  },

  async "a record that is stopped plays no more"() {
    const control = new AbortController(), tape = tapeOf(), made = recordOf(tape, soundOf(44100), opusFormat(), making(control)).catch(({ message }) => message);
    control.abort();
    same([await made, tape.log, Recorder.last.state], ["it was stopped", ["start", "stop", "disconnect"], "inactive"]);
  },

  "a QR code is drawn by runs of dark squares"() {
    same(pathOf(["101", "011", "000"]), "M0 0h1v1h-1zM2 0h1v1h-1zM1 1h2v1h-2z");
  },

  "names of files"() {
    same([fileName(2, "A/B: C", "wav"), fileName(3, "", "svg")], ["2 A B C.wav", "3.svg"]);
  },
};

await run(tests);
process.exit(0);
