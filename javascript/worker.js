// A session in a worker: the calls of `Session`, as promises.

import { isSupported } from "./engine.js";
import { ClosedError, NotSupportedError, WorkerError, errorOf, refusal } from "./errors.js";

const THREADS = "node:worker_threads"; // a name that bundlers for browsers do not look for
const METHODS = ["insert", "replace", "delete", "setText", "output", "titlesIn", "tokens", "play", "line", "lineBytes", "utf16Column", "byteColumn"];
const GETTERS = ["report", "numbers", "titles", "faults", "lineCount", "lines", "work"];

/** A worker of the package. Node has workers of its own kind. */
async function startWorker() {
  if (typeof Worker === "function") return new Worker(new URL("./worker_body.js", import.meta.url), { type: "module" });
  const threads = await import(/* webpackIgnore: true */ /* @vite-ignore */ THREADS);
  return new threads.Worker(new URL("./worker_body.js", import.meta.url));
}

/** What a worker gets of a module: an address in full, since a worker has another place. */
function sendable(module) {
  const isAddress = module instanceof URL || typeof module === "string";
  return isAddress ? new URL(module, globalThis.location?.href).href : module;
}

/** Calls `end` when a worker that holds a lock is gone, where there are locks: browsers say nothing of a worker that the page ends. */
function waitForEnd(lock, end) {
  if (lock) navigator.locks.request(lock, () => end("it ended"));
}

/** Calls `hear` with each message of a worker, and `end` if the worker fails. */
function listen(worker, hear, end) {
  if (typeof worker.on === "function") {
    worker.on("message", hear);
    worker.on("error", (error) => end(error.message));
    worker.on("exit", () => end("it ended"));
  } else {
    worker.onmessage = ({ data }) => hear(data);
    worker.onerror = ({ message }) => end(message ?? "its script is not loaded");
    worker.onmessageerror = () => end("a message cannot be read");
  }
}

export class WorkerSession {
  #worker;
  #asked = new Map(); // the calls without an answer, by their numbers
  #last = 0;
  #end = null; // why there are no more calls

  /** A session in a worker; `WorkerSession.open` calls it. */
  constructor(worker) {
    this.#worker = worker;
    listen(worker, (answer) => this.#hear(answer), (why) => this.#fail(why));
  }

  static isSupported() {
    return isSupported();
  }

  static async open({ module, worker } = {}) {
    if (!isSupported()) throw refusal(NotSupportedError);
    const session = new WorkerSession(worker ?? (await startWorker())), lock = globalThis.navigator?.locks ? crypto.randomUUID() : null;
    try {
      await session.#ask("open", [sendable(module), lock]);
      waitForEnd(lock, (why) => session.#fail(why));
    } catch (error) {
      await session.close();
      throw error;
    }
    return session;
  }

  static {
    for (const name of METHODS) {
      const value = function (...words) { return this.#ask(name, words); };
      Object.defineProperty(this.prototype, name, { value });
    }
    for (const name of GETTERS) {
      Object.defineProperty(this.prototype, name, { get() { return this.#ask(name, null); } });
    }
  }

  async close() {
    this.#finish(new ClosedError("the session is closed"));
    await this.#worker.terminate();
  }

  [Symbol.asyncDispose ?? Symbol.for("Symbol.asyncDispose")]() {
    return this.close();
  }

  /** The promise of a call's answer. A getter has no words. */
  #ask(call, words) {
    if (this.#end) return Promise.reject(this.#end);
    const id = (this.#last += 1);
    return new Promise((resolve, reject) => {
      this.#asked.set(id, { resolve, reject });
      this.#worker.postMessage({ id, call, words });
    });
  }

  #hear({ id, value, error }) {
    const asked = this.#asked.get(id);
    this.#asked.delete(id);
    if (error) asked?.reject(errorOf(error));
    else asked?.resolve(value);
  }

  /** Ends all calls, since the worker takes no more. */
  #fail(why) {
    this.#finish(new WorkerError(`the worker failed: ${why}`));
  }

  /** Ends all calls by an error, unless they ended before. */
  #finish(error) {
    this.#end ??= error;
    for (const { reject } of this.#asked.values()) reject(this.#end);
    this.#asked.clear();
  }
}
