// A sound as a file: WAV, which a worker makes, and Opus, which the browser records while the sound runs, without being heard.

/** What makes a file: it hears when it is to stop, and says which part is done, from 0 to 1.
 * @typedef {{ signal: AbortSignal, progress: (part: number) => void }} Making
 * A format of MediaRecorder, and how the names of its files end.
 * @typedef {{ type: string, ending: string }} Format */

/** @type {Format[]} */
const OPUS = [{ type: "audio/ogg;codecs=opus", ending: "ogg" }, { type: "audio/webm;codecs=opus", ending: "webm" }, { type: "audio/mp4;codecs=opus", ending: "m4a" }];
const PART = 441_000; // numbers of a channel that go to the worker at once
const EVERY = 250; // milliseconds between two looks at what is recorded
const PIECE = 1000; // milliseconds of a piece of a record

/** Throws as soon as the making of a file is stopped.
 * @type {(signal: AbortSignal) => Promise<never>} */
export function stopped(signal) {
  return new Promise((_, fail) => {
    const stop = () => fail(new Error("it was stopped"));
    if (signal.aborted) stop();
    signal.addEventListener("abort", stop, { once: true });
  });
}

/** A worker. Its address begins with the present token of the server, as that of the page does. */
const newWorker = () => new Worker(new URL("music/wav_worker.js", document.baseURI), { type: "module" });

/** What a worker answers to a message.
 * @type {(worker: Worker, message: import("./wav_worker.js").Message, buffers?: ArrayBuffer[]) => Promise<{ file?: Blob }>} */
function answerOf(worker, message, buffers = []) {
  return new Promise((done, fail) => {
    worker.onmessage = ({ data }) => done(data);
    worker.onerror = () => fail(new Error("a part of the page did not come"));
    worker.postMessage(message, buffers);
  });
}

/** The WAV file of a sound.
 * @type {(sound: AudioBuffer, making: Making, start?: () => Worker) => Promise<Blob>} */
export async function wavOf(sound, { signal, progress }, start = newWorker) {
  const { numberOfChannels, sampleRate, length } = sound, worker = start(), end = stopped(signal);
  try {
    await Promise.race([end, answerOf(worker, { head: [numberOfChannels, sampleRate, length] })]);
    for (let at = 0; at < length; at += PART) {
      const channels = Array.from({ length: numberOfChannels }, (_, channel) => partOf(sound, channel, at));
      await Promise.race([end, answerOf(worker, { channels }, channels.map(({ buffer }) => /** @type {ArrayBuffer} */ (buffer)))]);
      progress(Math.min(1, (at + PART) / length));
    }
    const { file } = await Promise.race([end, answerOf(worker, { isEnd: true })]);
    return /** @type {Blob} */ (file);
  } finally {
    worker.terminate();
  }
}

/** Numbers of a channel from a place on.
 * @type {(sound: AudioBuffer, channel: number, at: number) => Float32Array} */
function partOf(sound, channel, at) {
  const numbers = new Float32Array(Math.min(PART, sound.length - at));
  sound.copyFromChannel(numbers, channel, at);
  return numbers;
}

/** The format of Opus that this browser records, null if it has none.
 * @type {() => Format | null} */
export function opusFormat() {
  const { MediaRecorder: recorder } = globalThis;
  return recorder ? (OPUS.find(({ type }) => recorder.isTypeSupported(type)) ?? null) : null;
}

/** A record of a sound, which takes as long as the sound.
 * @type {(audio: AudioContext, sound: AudioBuffer, format: Format, making: Making) => Promise<Blob>} */
export async function recordOf(audio, sound, { type }, { signal, progress }) {
  const source = audio.createBufferSource(), way = audio.createMediaStreamDestination(), recorder = new MediaRecorder(way.stream, { mimeType: type });
  /** @type {Blob[]} */
  const pieces = [];
  source.buffer = sound;
  source.connect(way);
  recorder.ondataavailable = ({ data }) => pieces.push(data);
  const isOver = new Promise((done) => (recorder.onstop = done)), begin = performance.now();
  const timer = setInterval(() => progress(Math.min(1, (performance.now() - begin) / 1000 / sound.duration)), EVERY);
  source.onended = () => recorder.stop();
  recorder.start(PIECE);
  source.start();
  try {
    await Promise.race([stopped(signal), isOver]);
  } finally {
    clearInterval(timer);
    source.onended = null;
    source.stop();
    source.disconnect();
    if (recorder.state !== "inactive") recorder.stop();
  }
  return new Blob(pieces, { type: type.split(";")[0] });
}
