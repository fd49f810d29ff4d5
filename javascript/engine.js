// The engine: an instance of the WebAssembly module, with its memory. It may hold many sessions.

import { NotSupportedError, OutOfMemory, TrapError, refusal } from "./errors.js";

const MODULE = new URL("./abc2midi_live.wasm", import.meta.url);
// A module of one function, which fills a part of its memory and extends the sign of a byte: the newest instructions of the module.
const NEWEST = new Uint8Array([
  0, 97, 115, 109, 1, 0, 0, 0, 1, 6, 1, 96, 1, 126, 1, 126, 3, 2, 1, 0, 5, 3, 1, 0, 1, 10, 16, 1, 14, 0, 65, 0, 65, 0, 65, 0, 252, 11, 0, 32, 0, 194,
  11,
]);
const FORBIDDEN = "the policy of this page forbids WebAssembly: allow 'wasm-unsafe-eval' in the script-src of its Content-Security-Policy";
const FILES = "node:fs/promises"; // a name that bundlers for browsers do not look for
const MOST_ROOM = 65536, ROOM_STEP = 4096; // bytes of the block that an engine has for the texts and reports of edits
const MOST_OF_UNIT = 3; // bytes of UTF-8 for a unit of UTF-16
const encoder = new TextEncoder();

/** Whether this browser or program has the instructions that the module needs. */
export function isSupported() {
  return typeof WebAssembly === "object" && WebAssembly.validate(NEWEST);
}

/** Whether the policy of this page forbids to compile modules, also one that it supports. */
function isForbidden() {
  try {
    return !new WebAssembly.Module(NEWEST);
  } catch {
    return true;
  }
}

/** The bytes of a module, or the module itself: what `WebAssembly.instantiate` takes. */
async function content(source) {
  if (source instanceof WebAssembly.Module || source instanceof ArrayBuffer || ArrayBuffer.isView(source)) return source;
  const url = new URL(source, globalThis.location?.href);
  if (url.protocol === "file:") {
    const { readFile } = await import(/* webpackIgnore: true */ /* @vite-ignore */ FILES);
    return readFile(url);
  }
  const response = await fetch(url);
  if (!response.ok) throw new Error(`${url} was answered with the status ${response.status}`);
  return response.arrayBuffer();
}

export class Engine {
  #exports;
  #trap = null;
  #view = new DataView(new ArrayBuffer(0)); // of the memory; its buffer has no bytes as soon as the memory grows
  #room = { at: 0n, size: 0, bytes: new Uint8Array() }; // a block for the texts and reports of edits; its bytes are made when they are used

  constructor(exports) {
    this.#exports = exports;
  }

  /** Loads the module: that of the package, or another one by its URL, its bytes or as a `WebAssembly.Module`. */
  static async load(source = MODULE) {
    if (!isSupported()) throw refusal(NotSupportedError);
    if (!(source instanceof WebAssembly.Module) && isForbidden()) throw new NotSupportedError(FORBIDDEN);
    const made = await WebAssembly.instantiate(await content(source), {});
    return new Engine((made.instance ?? made).exports);
  }

  /** Whether the engine stopped in the middle of a call. Then it takes no other. */
  get isStopped() {
    return this.#trap !== null;
  }

  /** How many bytes the memory has. It grows with the sessions and never shrinks; closed sessions leave room for others. */
  get memoryBytes() {
    return this.#exports.memory.buffer.byteLength;
  }

  /**
   * What `use` returns, which calls one of the exports. It names the export, so that JavaScript's compiler sees which one it is. Whatever
   * it throws, its state may be half of one: so no other call follows.
   */
  call(use) {
    if (this.#trap) throw this.#stopped();
    try {
      return use(this.#exports);
    } catch (error) {
      this.#trap = error;
      throw this.#stopped();
    }
  }

  #stopped() {
    const why = `the engine stopped in the middle of a call (${this.#trap}): open another session, with the text that you have`;
    return new TrapError(why, { cause: this.#trap });
  }

  /** A view of the memory, valid up to the next call, after which the memory may be another one. */
  get view() {
    if (this.#view.buffer.byteLength === 0) this.#view = new DataView(this.#exports.memory.buffer);
    return this.#view;
  }

  /** The bytes of the memory from a place on, valid up to the next call. */
  bytes(at, count) {
    return new Uint8Array(this.view.buffer, Number(at), count);
  }

  /** Allocates bytes: at least one, so that each block has a place of its own. */
  allocate(count) {
    const bytes = BigInt(Math.max(count, 1));
    const at = this.call((it) => it.malloc(bytes));
    if (at === 0n) throw refusal(OutOfMemory);
    return at;
  }

  free(at) {
    this.call((it) => it.free(at));
  }

  /** Whether a text is a string that is short enough to be written into the block for edits as it is. */
  fits(text) {
    return typeof text === "string" && text.length * MOST_OF_UNIT <= this.#room.size;
  }

  /** Writes a text to a block, bytes or a string that fits. Returns how many bytes it wrote. */
  write(text, at) {
    if (typeof text === "string") return encoder.encodeInto(text, this.#bytesOfBlock(at)).written;
    this.bytes(at, text.length).set(text);
    return text.length;
  }

  /** What `use` returns for the place of a block of some bytes, which is another's afterwards. Small blocks are all at one place. */
  inBlock(count, use) {
    if (count <= MOST_ROOM) return use(this.#roomFor(count));
    const at = this.allocate(count);
    try {
      return use(at);
    } finally {
      if (!this.isStopped) this.free(at);
    }
  }

  /** The place of the block for edits, which becomes large enough. */
  #roomFor(count) {
    if (count > this.#room.size) {
      const size = Math.ceil(count / ROOM_STEP) * ROOM_STEP, at = this.allocate(size), { size: had, at: old } = this.#room;
      this.#room = { at, size, bytes: new Uint8Array() };
      if (had > 0) this.free(old);
    }
    return this.#room.at;
  }

  /** The bytes of the block for edits, or as many of a larger block, valid up to the next call. */
  #bytesOfBlock(at) {
    const room = this.#room;
    if (at !== room.at) return this.bytes(at, room.size);
    if (room.bytes.buffer !== this.view.buffer) room.bytes = this.bytes(at, room.size); // a growth of the memory makes another buffer
    return room.bytes;
  }
}

let shared = null; // a promise of the engine of all sessions that name none

/** The engine of all sessions that name none. It is loaded at the first call, and again if that failed or the engine stopped. */
export async function sharedEngine() {
  const last = shared;
  const engine = await last?.catch(() => null);
  if (engine && !engine.isStopped) return engine;
  if (shared === last) shared = Engine.load();
  return shared;
}
