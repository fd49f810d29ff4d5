// Regular expressions, which a worker looks for: one that takes too long is given up, and the page goes on meanwhile.

const PATIENCE = 2000; // milliseconds without an answer
const TO_START = 20000; // milliseconds in which the worker has to begin

/** @typedef {import("./search_matches.js").What} What
 * @typedef {import("./search_matches.js").Found} Found */

export class Expressions {
  /** `start` starts a worker. Its address begins with the present token of the server, as that of the page does, and not with the
   * one of this script, which may be older.
   * @param {() => Worker} start */
  constructor(start = () => new Worker(new URL("editor/search_worker.js", document.baseURI), { type: "module" })) {
    this.start = start;
    /** @type {Worker | null} */
    this.worker = null;
    /** @type {string[] | null} */
    this.lines = null; // that the worker has
    this.number = 0; // of the present search
    this.isReady = false;
    this.isBusy = false;
    /** @type {ReturnType<typeof setTimeout> | undefined} */
    this.timer = undefined;
    /** @type {(from: number, found: Found[][]) => void} */
    this.heard = () => {}; // the matches of some lines
    /** @type {(why: string) => void} */
    this.failed = () => {}; // the search was given up
  }

  /** Looks for something in some of these lines.
   * @param {string[]} lines
   * @param {What} what
   * @param {[number, number][]} gaps */
  look(lines, what, gaps) {
    if (this.isBusy) this.end(); // the worker may be at an expression that it never leaves
    const worker = (this.worker ??= this.begin());
    if (this.lines !== lines) worker.postMessage({ lines });
    this.lines = lines;
    this.ask(what, gaps);
  }

  /** Looks for it in some lines after an edit made them of those before.
   * @param {string[]} lines
   * @param {{ start: number, stop: number, put: string[] }} edit
   * @param {What} what
   * @param {[number, number][]} gaps */
  edited(lines, edit, what, gaps) {
    if (!this.worker || this.isBusy) return this.look(lines, what, gaps);
    this.worker.postMessage({ edit });
    this.lines = lines;
    this.ask(what, gaps);
  }

  /** @param {What} what
   * @param {[number, number][]} gaps */
  ask(what, gaps) {
    this.number += 1;
    this.isBusy = gaps.length > 0;
    this.worker?.postMessage({ number: this.number, what, gaps });
    this.wait();
  }

  /** A worker, which hears what is asked of it when it has begun. */
  begin() {
    const worker = this.start();
    this.isReady = false;
    worker.onmessage = ({ data }) => worker === this.worker && this.hear(data);
    worker.onerror = () => worker === this.worker && this.fail("The search cannot begin: the server is away.");
    return worker;
  }

  /** @param {{ isReady?: boolean, number: number, from: number, found: Found[][], isDone: boolean }} answer */
  hear({ isReady, number, from, found, isDone }) {
    if (isReady) this.isReady = true;
    if (!isReady && number === this.number) this.isBusy = !isDone;
    this.wait();
    if (!isReady && number === this.number) this.heard(from, found);
  }

  /** Gives the worker some time for its next answer. */
  wait() {
    clearTimeout(this.timer);
    if (!this.isBusy) return;
    const [time, why] = this.isReady ? [PATIENCE, "This expression takes too long."] : [TO_START, "The search does not begin."];
    this.timer = setTimeout(() => this.fail(why), time);
  }

  /** @param {string} why */
  fail(why) {
    this.end();
    this.failed(why);
  }

  /** Ends the worker. */
  end() {
    clearTimeout(this.timer);
    this.worker?.terminate();
    this.worker = this.lines = null;
    this.isBusy = false;
  }
}
