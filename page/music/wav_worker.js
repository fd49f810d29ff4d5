// Makes a WAV file apart from the page. The page sends { head: [channels, rate, frames] }, then { channels } for one part of the sound after
// another, and { isEnd } at last. Each message is answered: the last one by { file }, the others by {}.

import { wavHead, wavNumbers } from "./wav_file.js";

/** @typedef {{ head?: [channels: number, rate: number, frames: number], channels?: Float32Array[], isEnd?: boolean }} Message */

/** @type {ArrayBuffer[]} */
const parts = [];

/** @type {(message: Message) => { file?: Blob }} */
function answerTo({ head, channels, isEnd }) {
  if (head) parts.push(wavHead(...head));
  if (channels) parts.push(wavNumbers(channels));
  return isEnd ? { file: new Blob(parts, { type: "audio/wav" }) } : {};
}

globalThis.onmessage = (/** @type {MessageEvent} */ { data }) => postMessage(answerTo(data));
