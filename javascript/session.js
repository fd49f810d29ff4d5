// A session: the text of a tune book under edits, with its MIDI files, titles and faults.

import { fewEdits } from "./edits.js";
import { isSupported, sharedEngine } from "./engine.js";
import { BadLine, BadRange, ClosedError, OutOfMemory, PlayTooLong, TooLarge, refusal } from "./errors.js";
import { SENTENCES } from "./faults.js";
import { MOST_LINES, byteColumnOf, bytesOfBook, bytesOfLines, countLines, hasLongLine, joined } from "./lines.js";
import { numberFor, textOf, utf16ColumnOf, utf16ColumnsOf } from "./lines.js";
import { ENTRY_SIZE, entryAt } from "./plays.js";
import { kindOf } from "./tokens.js";

// The codes that calls of the module return, by the header of the C library.
const OK = 0, NOT_FOUND = 6, SHORT_BUFFER = 7;
const REFUSALS = new Map([[2, BadRange], [3, BadLine], [4, TooLarge], [5, OutOfMemory], [8, PlayTooLong]]);

// The block of a session in the memory: the session of the C library, its counters, a count, a number, and room for short answers.
const WORK = 16, COUNT = 40, NUMBER = 48, ANSWER = 56, ROOM = 4096, BLOCK = ANSWER + ROOM;
const NUMBER_SIZE = 4, SIZE_SIZE = 8, FAULT_SIZE = 12, TOKEN_SIZE = 16; // bytes of an item
const SHORTEST_TUNE = 3; // bytes: `X:` and a line feed

/** Closes a session that was dropped without `close`. */
const dropped = new FinalizationRegistry(({ engine, block }) => {
  if (engine.isStopped) return;
  engine.call((it) => it.abc_live_close(block));
  engine.free(block);
});

/** Throws the error of a code, unless it is OK. */
function check(code) {
  if (code === OK) return;
  throw REFUSALS.has(code) ? refusal(REFUSALS.get(code)) : new Error(`the module returned the code ${code}`);
}

export class Session {
  #engine;
  #block;
  #places; // of what is in the block
  #report = { written: [], removed: [] };
  #text = null; // the text, if `setText` made it and no other edit followed; else it is read when it is needed

  /** A session over an engine; `Session.open` calls it. */
  constructor(engine) {
    this.#engine = engine;
    this.#block = engine.allocate(BLOCK);
    this.#places = placesIn(this.#block);
    engine.bytes(this.#block, ANSWER).fill(0);
    const code = engine.call((it) => it.abc_live_open(this.#block));
    if (code !== OK) engine.free(this.#block);
    check(code);
    dropped.register(this, { engine, block: this.#block }, this);
  }

  static isSupported() {
    return isSupported();
  }

  static async open({ engine } = {}) {
    return new Session(engine ?? (await sharedEngine()));
  }

  // ---- edits

  insert(at, lines) {
    const insert = (it, text, size) => it.abc_live_insert(this.#block, at, text, size, this.#places.work);
    return this.#edit(lines, at, at, insert);
  }

  replace(from, to, lines) {
    const replace = (it, text, size) => it.abc_live_replace(this.#block, from, to, text, size, this.#places.work);
    return this.#edit(lines, from, to, replace);
  }

  delete(from, to) {
    const remove = (it) => it.abc_live_delete(this.#block, from, to, this.#places.work);
    return this.#edit("", from, to, remove);
  }

  setText(text) {
    this.#checkOpen();
    const now = bytesOfBook(text), old = this.#text ?? this.#readText(), lines = this.lineCount;
    const edits = fewEdits(old, now, lines);
    if (edits.some((edit) => hasLongLine(edit.text))) throw refusal(BadLine);
    if (edits.reduce((sum, { start, stop, text: put }) => sum + countLines(put) - (stop - start), lines) > MOST_LINES) throw refusal(TooLarge);
    const report = this.#makeEdits(edits);
    this.#text = now;
    return report;
  }

  /** Makes edits from the last to the first. Their reports become one. */
  #makeEdits(edits) {
    const had = new Set(edits.length > 1 ? this.numbers : []);
    const hasFile = new Map();
    let report = { written: [], removed: [] };
    for (const { start, stop, text } of [...edits].reverse()) {
      report = start === stop ? this.insert(start + 1, text) : this.replace(start + 1, stop, text);
      for (const number of report.written) hasFile.set(number, true);
      for (const number of report.removed) hasFile.set(number, false);
    }
    if (edits.length > 1) {
      const numbers = [...hasFile.keys()].sort((one, other) => one - other);
      const written = numbers.filter((number) => hasFile.get(number));
      report = { written, removed: numbers.filter((number) => !hasFile.get(number) && had.has(number)) };
    }
    this.#report = report;
    return this.report;
  }

  /**
   * Makes an edit of lines from a first one to a last one: `call` makes it, with the place and the size of its text. The block of the text
   * is large enough for the report too, so nothing can fail after the edit.
   */
  #edit(lines, from, to, call) {
    const text = this.#engine.fits(lines) ? lines : bytesOfLines(lines);
    this.#checkOpen();
    const [first, last] = [numberFor(from), numberFor(to)];
    if (first === null || last === null) throw refusal(BadRange);
    const engine = this.#engine;
    const tunes = this.#titleCount() + Math.floor(text.length / SHORTEST_TUNE) + 1; // the text has no more after the edit
    engine.inBlock(Math.max(text.length, tunes * NUMBER_SIZE), (block) => {
      const size = engine.write(text, block);
      check(engine.call((it) => call(it, block, BigInt(size))));
      this.#text = null;
      this.#report = {
        written: this.#numbersAt(block, tunes, (it, ...words) => it.abc_live_written(this.#block, ...words)),
        removed: this.#numbersAt(block, tunes, (it, ...words) => it.abc_live_removed(this.#block, ...words)),
      };
    });
    return this.report;
  }

  // ---- what the text has

  get report() {
    this.#checkOpen();
    return { written: [...this.#report.written], removed: [...this.#report.removed] };
  }

  output(number) {
    this.#checkOpen();
    const wanted = numberFor(number);
    return wanted === null ? null : this.#copied(1, (it, ...buffer) => it.abc_live_output(this.#block, wanted, ...buffer));
  }

  get numbers() {
    this.#checkOpen();
    return numbersIn(this.#copied(NUMBER_SIZE, (it, ...buffer) => it.abc_live_numbers(this.#block, ...buffer)));
  }

  get titles() {
    return this.titlesIn(0);
  }

  titlesIn(start, stop) {
    this.#checkOpen();
    return [...Array(this.#titleCount()).keys()].slice(start, stop).map((index) => {
      const bytes = this.#copied(1, (it, ...buffer) => it.abc_live_title(this.#block, BigInt(index), this.#places.number, ...buffer));
      return { number: this.#number(), text: textOf(bytes), bytes };
    });
  }

  get faults() {
    this.#checkOpen();
    const numbers = numbersIn(this.#copied(FAULT_SIZE, (it, ...buffer) => it.abc_live_faults(this.#block, ...buffer)));
    const names = new Map();
    let last = { number: 0, bytes: null };
    return Array.from({ length: numbers.length / 3 }, (_, n) => {
      const [line, column, code] = numbers.slice(3 * n, 3 * n + 3);
      if (line !== last.number) last = { number: line, bytes: this.lineBytes(line) };
      if (!names.has(code)) names.set(code, textOf(this.#copied(1, (it, ...buffer) => it.abc_live_fault_name(code, ...buffer))));
      const name = names.get(code);
      return { line, column, utf16Column: utf16ColumnOf(last.bytes, column), name, ...SENTENCES[name] };
    });
  }

  tokens(number) {
    const columns = utf16ColumnsOf(this.lineBytes(number));
    const numbers = numbersIn(this.#copied(TOKEN_SIZE, (it, ...buffer) => it.abc_live_tokens(this.#block, number, ...buffer, this.#places.work)));
    return Array.from({ length: numbers.length / 4 }, (_, n) => {
      const [from, to, kind, depth] = numbers.slice(4 * n, 4 * n + 4);
      return { from, to, utf16From: columns[from - 1], utf16To: columns[to - 1], kind: kindOf(kind), depth };
    });
  }

  play(number) {
    this.#checkOpen();
    const wanted = numberFor(number);
    const sizes = wanted === null ? null : this.#copied(SIZE_SIZE, (it, ...buffer) => it.abc_live_tracks(this.#block, wanted, ...buffer));
    return sizes === null ? null : this.#tracks(wanted, sizesIn(sizes));
  }

  /** The entries of each track of a number, whose sizes are known. */
  #tracks(number, sizes) {
    const size = sizes.reduce((sum, count) => sum + count, 0);
    const bytes = this.#copied(ENTRY_SIZE, (it, ...buffer) => it.abc_live_play(this.#block, number, ...buffer), size);
    const view = viewOf(bytes), columns = new Map();
    const columnsOf = (line) => {
      if (!columns.has(line)) columns.set(line, utf16ColumnsOf(this.lineBytes(line)));
      return columns.get(line);
    };
    let next = 0;
    return sizes.map((size) => Array.from({ length: size }, () => entryAt(view, next++, columnsOf)));
  }

  get lineCount() {
    this.#checkOpen();
    check(this.#engine.call((it) => it.abc_live_line_count(this.#block, this.#places.number)));
    return this.#number();
  }

  get lines() {
    return Array.from({ length: this.lineCount }, (_, n) => this.line(n + 1));
  }

  line(number) {
    return textOf(this.lineBytes(number));
  }

  lineBytes(number) {
    this.#checkOpen();
    const wanted = numberFor(number);
    const bytes = wanted === null ? null : this.#copied(1, (it, ...buffer) => it.abc_live_line(this.#block, wanted, ...buffer));
    if (bytes === null) throw new RangeError(`there is no line ${number} in a text of ${this.lineCount} lines`);
    return bytes;
  }

  utf16Column(line, column) {
    return utf16ColumnOf(this.lineBytes(line), column);
  }

  byteColumn(line, utf16Column) {
    return byteColumnOf(this.lineBytes(line), utf16Column);
  }

  get work() {
    this.#checkOpen();
    const [scanned, folded, built] = [0, 8, 16].map((more) => this.#sizeAt(WORK + more));
    return { scanned, folded, built };
  }

  // ---- the end

  close() {
    if (this.#block === null) return;
    const block = this.#block;
    this.#block = null;
    this.#text = null;
    dropped.unregister(this);
    if (this.#engine.isStopped) return;
    this.#engine.call((it) => it.abc_live_close(block));
    this.#engine.free(block);
  }

  [Symbol.dispose ?? Symbol.for("Symbol.dispose")]() {
    this.close();
  }

  #checkOpen() {
    if (this.#block === null) throw new ClosedError("the session is closed");
  }

  // ---- the memory

  /** The number of 64 bits at a place in the block of the session. */
  #sizeAt(place) {
    return Number(this.#engine.view.getBigUint64(this.#places.block + place, true));
  }

  #count() {
    return this.#sizeAt(COUNT);
  }

  #number() {
    return this.#engine.view.getUint32(this.#places.block + NUMBER, true);
  }

  #titleCount() {
    check(this.#engine.call((it) => it.abc_live_title_count(this.#block, this.#places.count)));
    return this.#count();
  }

  /** The text of the session. */
  #readText() {
    return joined(Array.from({ length: this.lineCount }, (_, n) => this.lineBytes(n + 1)));
  }

  /**
   * A copy of the bytes that `call` copies, whose items have `size` bytes; null if the call finds nothing. The call gets the place and the
   * room of a buffer, and the place of a count. There are `known` items, if that is known.
   */
  #copied(size, call, known = 0) {
    const engine = this.#engine, { answer, count: countAt } = this.#places, room = Math.floor(ROOM / size);
    if (known > room) return this.#copiedToBlock(size, call, known);
    const code = engine.call((it) => call(it, answer, BigInt(room), countAt));
    if (code === NOT_FOUND) return null;
    if (code === SHORT_BUFFER) return this.#copiedToBlock(size, call, this.#count());
    check(code);
    return engine.bytes(answer, this.#count() * size).slice();
  }

  /** A copy of `count` items of `size` bytes that `call` copies, by a block of their own. */
  #copiedToBlock(size, call, count) {
    const engine = this.#engine;
    return engine.inBlock(count * size, (block) => {
      check(engine.call((it) => call(it, block, BigInt(count), this.#places.count)));
      return engine.bytes(block, count * size).slice();
    });
  }

  /** The numbers that `call` copies to a block with room for `most`. */
  #numbersAt(block, most, call) {
    check(this.#engine.call((it) => call(it, block, BigInt(most), this.#places.count)));
    return numbersOf(this.#engine.view, Number(block), this.#count());
  }
}

/** The places of what is in the block of a session: as words of a call, and the block as a number. */
function placesIn(block) {
  const [work, count, number, answer] = [WORK, COUNT, NUMBER, ANSWER].map((place) => block + BigInt(place));
  return { block: Number(block), work, count, number, answer };
}

/** A view of bytes. */
function viewOf(bytes) {
  return new DataView(bytes.buffer, bytes.byteOffset, bytes.byteLength);
}

/** The 32-bit numbers of the module from a place on. */
function numbersOf(view, from, count) {
  const numbers = [];
  for (let n = 0; n < count; n += 1) numbers.push(view.getUint32(from + n * NUMBER_SIZE, true)); // each edit is here: `Array.from` is slow
  return numbers;
}

/** The 32-bit numbers in bytes of the module. */
function numbersIn(bytes) {
  return numbersOf(viewOf(bytes), 0, bytes.byteLength / NUMBER_SIZE);
}

/** The sizes in bytes of the module, of 64 bits each. */
function sizesIn(bytes) {
  const view = viewOf(bytes);
  return Array.from({ length: bytes.byteLength / SIZE_SIZE }, (_, n) => Number(view.getBigUint64(n * SIZE_SIZE, true)));
}
