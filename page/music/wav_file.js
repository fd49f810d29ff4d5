// A sound as the bytes of a WAV file: 16 bits for each number, the channels in turn.

const HEAD = 44; // bytes before the numbers

/** What precedes the numbers of a file of some channels, each of as many numbers as there are frames.
 * @type {(channels: number, rate: number, frames: number) => ArrayBuffer} */
export function wavHead(channels, rate, frames) {
  const each = 2 * channels, size = each * frames, view = new DataView(new ArrayBuffer(HEAD));
  writeWord(view, 0, "RIFF");
  view.setUint32(4, HEAD - 8 + size, true);
  writeWord(view, 8, "WAVE");
  writeWord(view, 12, "fmt ");
  view.setUint32(16, 16, true); // bytes of the format
  view.setUint16(20, 1, true); // plain numbers
  view.setUint16(22, channels, true);
  view.setUint32(24, rate, true);
  view.setUint32(28, rate * each, true);
  view.setUint16(32, each, true);
  view.setUint16(34, 16, true); // bits
  writeWord(view, 36, "data");
  view.setUint32(40, size, true);
  return view.buffer;
}

/** The numbers of some channels, which are from -1 to 1, as they follow each other in a file.
 * @type {(channels: Float32Array[]) => ArrayBuffer} */
export function wavNumbers(channels) {
  const view = new DataView(new ArrayBuffer(2 * channels.length * channels[0].length));
  channels.forEach((numbers, channel) => writeNumbers(view, numbers, 2 * channel, 2 * channels.length));
  return view.buffer;
}

/** @type {(view: DataView, at: number, word: string) => void} */
function writeWord(view, at, word) {
  [...word].forEach((letter, n) => view.setUint8(at + n, letter.charCodeAt(0)));
}

/** Writes the numbers of a channel, from a place on, with a distance between them.
 * @type {(view: DataView, numbers: Float32Array, at: number, distance: number) => void} */
function writeNumbers(view, numbers, at, distance) {
  for (let n = 0; n < numbers.length; n += 1) view.setInt16(at + n * distance, Math.round(32767 * Math.max(-1, Math.min(1, numbers[n]))), true);
}
