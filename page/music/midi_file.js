// A Standard MIDI File as what is drawn and played: notes with moments in ticks, tempos, bars, voices.

/** A note: from a tick to a tick, its key, how loud, the program of its voice, whether it is a drum, and its voice.
 * @typedef {{ start: number, end: number, key: number, velocity: number, program: number, drum: boolean, voice: number }} Note
 * A tempo: the tick and the second at which it begins, and the seconds of a tick.
 * @typedef {{ tick: number, second: number, each: number }} Tempo
 * @typedef {{ tick: number, over: number, under: number }} Meter
 * @typedef {object} Score
 * @property {number} division ticks of a quarter note
 * @property {Note[]} notes
 * @property {Tempo[]} tempos
 * @property {Meter[]} meters
 * @property {number[]} bars the ticks at which bars begin; the end is the last
 * @property {number} end
 * @property {number} voices how many
 * @property {{ voice: number | null }[]} tracks
 * A score while its file is read: its changes of the tempo, in microseconds of a quarter note.
 * @typedef {Score & { changes: { tick: number, micros: number }[] }} FileScore
 * @typedef {{ bytes: DataView, at: number, tick: number, status: number, programs: number[], open: Map<number, Note> }} Track */

const DRUMS = 9;

/** The score of a file's bytes: notes in order of their starts, each with the voice (track) it belongs to.
 * @type {(buffer: ArrayBuffer) => Score} */
export function scoreOf(buffer) {
  const bytes = new DataView(buffer);
  /** @type {FileScore} */
  const score = { division: bytes.getUint16(12), notes: [], changes: [], meters: [], tempos: [], bars: [], end: 0, voices: 0, tracks: [] };
  let at = 8 + bytes.getUint32(4);
  while (at + 8 <= bytes.byteLength) {
    const end = at + 8 + bytes.getUint32(at + 4);
    readTrack(new DataView(buffer, at + 8, end - at - 8), score);
    at = end;
  }
  score.notes.sort((a, b) => a.start - b.start || a.key - b.key);
  score.tempos = timed(score.changes, score.division);
  score.bars = barsOf(score);
  return score;
}

/** Adds the events of a track. A track with notes is a voice.
 * @type {(bytes: DataView, score: FileScore) => void} */
function readTrack(bytes, score) {
  const track = { bytes, at: 0, tick: 0, status: 0, programs: new Array(16).fill(0), open: new Map() };
  const count = score.notes.length;
  while (track.at < bytes.byteLength) readEvent(track, score);
  const hasNotes = score.notes.length > count;
  score.end = Math.max(score.end, track.tick);
  score.tracks.push({ voice: hasNotes ? score.voices : null });
  if (hasNotes) score.voices += 1;
}

/** Adds the next event of a track. One without a status has that of the event before it.
 * @type {(track: Track, score: FileScore) => void} */
function readEvent(track, score) {
  track.tick += readNumber(track);
  if (track.bytes.getUint8(track.at) & 128) track.status = track.bytes.getUint8(track.at++);
  if (track.status >= 0xf0) readMeta(track, score);
  else readMessage(track, score);
}

/** Reads a number of one or more bytes, of seven bits each.
 * @type {(track: Track) => number} */
function readNumber(track) {
  let value = 0, byte;
  do { byte = track.bytes.getUint8(track.at++); value = value * 128 + (byte & 127); } while (byte & 128);
  return value;
}

/** Adds a tempo or a meter. Other events of the file, and messages to one system, are skipped.
 * @type {(track: Track, score: FileScore) => void} */
function readMeta(track, score) {
  const { bytes, tick } = track;
  const type = track.status === 0xff ? bytes.getUint8(track.at++) : 0;
  const length = readNumber(track), { at } = track;
  if (type === 0x51) score.changes.push({ tick, micros: bytes.getUint16(at) * 256 + bytes.getUint8(at + 2) });
  if (type === 0x58) score.meters.push({ tick, over: bytes.getUint8(at), under: 2 ** bytes.getUint8(at + 1) });
  track.at += length;
}

/** Takes a message to a channel: a note begins or ends, or the program changes.
 * @type {(track: Track, score: FileScore) => void} */
function readMessage(track, score) {
  const { bytes, tick, programs, open } = track, kind = track.status >> 4, channel = track.status & 15;
  const first = bytes.getUint8(track.at++);
  const second = kind === 12 || kind === 13 ? 0 : bytes.getUint8(track.at++);
  const id = channel * 128 + first;
  if (kind === 12) programs[channel] = first;
  const sounding = open.get(id);
  if ((kind === 8 || kind === 9) && sounding) {
    sounding.end = tick;
    open.delete(id);
  }
  if (kind === 9 && second > 0) {
    const sound = { velocity: second, program: programs[channel], drum: channel === DRUMS };
    const note = { start: tick, end: tick, key: first, ...sound, voice: score.voices };
    score.notes.push(note);
    open.set(id, note);
  }
}

/** The tempos in order, each with the second at which it begins and the seconds of a tick.
 * @type {(tempos: { tick: number, micros: number }[], division: number) => Tempo[]} */
function timed(tempos, division) {
  const found = [{ tick: 0, second: 0, each: 0.5 / division }];
  for (const { tick, micros } of tempos.sort((a, b) => a.tick - b.tick)) {
    const last = found[found.length - 1];
    const next = { tick, second: last.second + (tick - last.tick) * last.each, each: micros / 1e6 / division };
    if (tick === last.tick) found[found.length - 1] = next;
    else found.push(next);
  }
  return found;
}

/** The ticks at which bars begin, by the meters from tick 0; the end is the last.
 * @type {(score: Score) => number[]} */
function barsOf(score) {
  const bars = [];
  const meters = score.meters.sort((a, b) => a.tick - b.tick);
  let tick = 0, next = 0, length = 4 * score.division;
  while (tick < score.end) {
    while (next < meters.length && meters[next].tick <= tick) {
      length = Math.max(1, (4 * score.division * meters[next].over) / meters[next].under);
      next += 1;
    }
    bars.push(tick);
    tick = next < meters.length ? Math.min(tick + length, meters[next].tick) : tick + length;
  }
  bars.push(score.end);
  return bars;
}

/** The second at which a tick is played.
 * @type {(score: Score, tick: number) => number} */
export function secondOf(score, tick) {
  const tempo = score.tempos.findLast((one) => one.tick <= tick) ?? score.tempos[0];
  return tempo.second + (tick - tempo.tick) * tempo.each;
}

/** The tick that is played at a second.
 * @type {(score: Score, second: number) => number} */
export function tickOf(score, second) {
  const tempo = score.tempos.findLast((one) => one.second <= second) ?? score.tempos[0];
  return tempo.tick + (second - tempo.second) / tempo.each;
}
