// Tries what can be undone, also after the page is loaded anew, and the file of the text, without a browser. The folder of the
// page's scripts is the argument. Each test prints a line, `ok` or `FAILED`, with its name.

import { pathToFileURL } from "node:url";

import { chances, run, same } from "../testing.mjs";

const from = (name) => import(pathToFileURL(`${process.argv[2]}/${name}.js`));
const { blobOf } = await from("text/book_blob");
const { inverse } = await from("text/undo_history");
const { applyEdits } = await from("text/line_edits");
const { Text } = await from("text/text");
const { Prints, UndoStore } = await from("text/undo_store");
const PLACE = { start: { line: 0, column: 0 }, end: { line: 0, column: 0 }, direction: "forward" };

/** A text of these lines, which the server has. */
function opened(...lines) {
  const text = new Text();
  text.open(lines);
  return text;
}

/** An edit of this window, which the server gets. */
function typed(text, start, stop, ...put) {
  text.edit(start, stop, put, PLACE, PLACE);
  text.take();
}

/** What is left of a text after a number of steps back. */
function undone(text, count = 1) {
  for (let n = 0; n < count; n += 1) text.undo();
  return text.lines.join("");
}

/** A store as the browser's. */
function storeOf(most = Infinity) {
  const kept = new Map();
  return {
    getItem: (key) => kept.get(key) ?? null,
    setItem: (key, value) => {
      if (value.length > most) throw new Error("no room");
      kept.set(key, value);
    },
  };
}

/** The store of a window over a text, which the server has at a version. */
function undoStoreOf(text, store, { run = "r", version = 0, changes = [] } = {}) {
  const link = { state: { run, version }, isSettled: true };
  return new UndoStore(text, link, async (since) => ({ changes: changes.filter((change) => change.version > since) }), store);
}

/** One random edit of some lines; the lines that it puts in are new ones. */
function randomEdit(chance, lines, name) {
  const start = chance(lines.length + 1);
  const stop = Math.min(lines.length, start + chance(3));
  const count = stop > start && lines.length > stop - start ? chance(3) : 1 + chance(2);
  return { start, stop, put: Array.from({ length: count }, (_, n) => `${name}.${n}`) };
}

const tests = {
  "the selection before a step of two edits stays with its text when others edit"() {
    const text = opened("0", "1", "2", "3", "4", "5", "6", "7"), at = (line) => ({ ...PLACE, start: { line, column: 0 }, end: { line, column: 1 } });
    text.change([{ start: 0, taken: ["0"], put: ["0", "a"] }, { start: 2, taken: ["2"], put: ["2", "b", "c"] }], at(5), at(8));
    text.take();
    text.others(8, 8, ["other"]); // before line 5
    same([text.undo(), text.lines.join("")], [at(6), "01234other567"]);
    same([text.redo(), text.lines.join("")], [at(9), "0a12bc34other567"]);
    text.undo();
    text.take();
    text.others(5, 6, []);
    same([text.redo(), text.lines.join("")], [at(8), "0a12bc34567"]);
  },

  "after a new step nothing that was undone is done again"() {
    const text = opened("a", "b");
    typed(text, 0, 1, "A");
    text.undo();
    typed(text, 1, 2, "B");
    same([text.redo(), text.lines.join("")], [null, "aB"]);
  },

  "edits of others at other lines leave what can be undone"() {
    const text = opened("a", "b", "c");
    typed(text, 2, 3, "C");
    text.others(0, 1, ["x", "y"]);
    same([text.lines.join(""), undone(text)], ["xybC", "xybc"]);
    text.redo();
    same(text.lines.join(""), "xybC");
    text.others(3, 3, ["z"]);
    same([text.lines.join(""), undone(text)], ["xybzC", "xybzc"]);
  },

  "edits of others at the same line end it, and older steps stay"() {
    const text = opened("a", "b", "c");
    typed(text, 0, 1, "A");
    typed(text, 2, 3, "C", "D");
    text.others(2, 3, ["x"]);
    same([text.lines.join(""), undone(text)], ["AbxD", "abxD"]);
    same(text.undo(), null);
  },

  "a step that is left out moves the older ones"() {
    const text = opened("a", "b", "c");
    typed(text, 2, 3, "C");
    typed(text, 0, 0, "1", "2", "3");
    text.others(1, 2, []);
    same([text.lines.join(""), undone(text, 2)], ["13abC", "13abc"]);
  },

  "a key soon after a step was done again is a step of its own"() {
    const text = opened("a");
    typed(text, 0, 1, "ab");
    text.undo();
    text.redo();
    typed(text, 0, 1, "abc");
    same([undone(text), undone(text), text.undo()], ["ab", "a", null]);
  },

  "edits of others at other lines leave what can be done again"() {
    const text = opened("a", "b", "c");
    typed(text, 2, 3, "C");
    typed(text, 0, 0, "new");
    undone(text, 2);
    text.take();
    text.others(1, 2, ["B", "B"]);
    text.redo();
    text.redo();
    same(text.lines.join(" "), "new a B B C");
  },

  "steps of several edits"() {
    const text = opened("a", "b", "c", "d", "e");
    text.change([{ start: 0, taken: ["a"], put: ["1", "2"] }, { start: 3, taken: ["d"], put: [] }], PLACE, PLACE);
    same([text.lines.join(""), text.pending], ["12bce", { start: 0, stop: 4, count: 4, taken: ["a", "b", "c", "d"] }]);
    text.take();
    text.others(2, 3, ["B", "B"]);
    same([text.lines.join(""), undone(text)], ["12BBce", "aBBcde"]);
    text.redo();
    same(text.lines.join(""), "12BBce");
  },

  "the caret of a step moves too"() {
    const text = opened("a", "b");
    const at = { start: { line: 1, column: 1 }, end: { line: 1, column: 1 }, direction: "forward" };
    text.edit(1, 2, ["B"], at, at);
    text.take();
    text.others(0, 0, ["x", "y"]);
    same(text.undo().start, { line: 3, column: 1 });
  },

  "a text keeps a line"() {
    const text = opened("a");
    typed(text, 1, 1, "b");
    text.others(0, 1, []);
    text.undo();
    same(text.lines, [""]);
  },

  "a whole text that the server has leaves steps at other lines"() {
    const text = opened("a", "b", "c");
    typed(text, 2, 3, "C");
    text.open(["new", "a", "b", "C"]);
    same(undone(text), "newabc");
  },

  "edits at random: what others put in stays, what they took stays away, and all can be done again"() {
    for (let seed = 1; seed <= 300; seed += 1) {
      const chance = chances(seed), base = Array.from({ length: 12 }, (_, n) => `base.${n}`);
      const text = opened(...base), put = new Set(), taken = new Set();
      for (let n = 0; n < 12; n += 1) {
        const edit = randomEdit(chance, text.lines, n % 3 === 2 ? `other${n}` : `own${n}`);
        if (n % 3 === 2) {
          text.lines.slice(edit.start, edit.stop).forEach((line) => taken.add(line) && put.delete(line));
          edit.put.forEach((line) => put.add(line));
          text.others(edit.start, edit.stop, edit.put);
        } else {
          text.lines.slice(edit.start, edit.stop).forEach((line) => put.delete(line));
          typed(text, edit.start, edit.stop, ...edit.put);
        }
      }
      const before = text.lines, steps = text.history.past.length;
      const kept = [...put];
      for (let n = 0; n < steps; n += 1) text.undo();
      same([seed, kept.filter((line) => !text.lines.includes(line)), text.lines.filter((line) => taken.has(line))], [seed, [], []]);
      const left = base.filter((line) => text.lines.includes(line));
      same([seed, text.lines.filter((line) => line.startsWith("base"))], [seed, left]);
      for (let n = 0; n < steps; n += 1) text.redo();
      same([seed, text.lines], [seed, before]);
    }
  },

  "all that another program wrote at once is one step"() {
    for (let seed = 1; seed <= 100; seed += 1) {
      const chance = chances(seed), old = Array.from({ length: 12 }, (_, n) => `old.${n}`), text = opened(...old);
      typed(text, 0, 1, "typed");
      const before = text.lines;
      for (let stop = text.lines.length; stop > 0; stop -= 1 + chance(4)) {
        const start = Math.max(0, stop - chance(3)), put = Array.from({ length: chance(3) }, (_, n) => `new ${stop}.${n}`);
        if (start < stop || put.length) text.others(start, stop, put, "a writing");
        stop = start;
      }
      const now = text.lines;
      text.undo();
      same([seed, text.lines], [seed, before]);
      text.redo();
      same([seed, text.lines], [seed, now]);
      same([seed, undone(text, 2)], [seed, old.join("")]);
    }
  },

  "what another program wrote at two times is two steps"() {
    const text = opened("a", "b", "c");
    text.others(2, 3, ["C"], "one");
    text.others(0, 1, ["A"], "other");
    same([undone(text), undone(text)], ["abC", "abc"]);
  },

  "a step and its inverse"() {
    const lines = ["a", "b", "c", "d"], step = { edits: [{ start: 0, taken: [], put: ["1"] }, { start: 1, taken: ["b", "c"], put: ["2"] }] };
    const now = applyEdits(lines, step.edits);
    same([now, applyEdits(now, inverse(step).edits)], [["1", "a", "2", "d"], lines]);
  },

  async "what can be undone is kept while the page is loaded anew"() {
    const store = storeOf(), text = opened("a", "b");
    const kept = undoStoreOf(text, store, { version: 1 });
    await kept.open("book");
    typed(text, 0, 1, "A");
    typed(text, 1, 2, "B");
    text.undo();
    kept.keep();
    const next = opened("A", "b");
    await undoStoreOf(next, store, { run: "another", version: 7 }).open("book");
    next.redo();
    same([next.lines.join(""), undone(next, 2)], ["AB", "ab"]);
    const other = opened("A", "b");
    await undoStoreOf(other, store).open("other book");
    same(other.undo(), null);
  },

  async "it is moved over what changed meanwhile, and dropped if that is not known"() {
    const store = storeOf(), text = opened("a", "b");
    const kept = undoStoreOf(text, store, { version: 1 });
    await kept.open("book");
    typed(text, 1, 2, "B");
    kept.keep();
    const changes = [{ version: 2, edit: { start: 0, stop: 1, lines: ["x", "y"] } }, { version: 3, edit: { start: 0, stop: 1, lines: [] } }];
    const next = opened("y", "B");
    await undoStoreOf(next, store, { version: 3, changes }).open("book");
    same(undone(next), "yb");
    for (const state of [{ run: "another", version: 3, changes }, { version: 3, changes: changes.slice(1) }]) {
      const other = opened("y", "B");
      await undoStoreOf(other, store, state).open("book");
      same(other.undo(), null);
    }
  },

  async "what is kept has a limit: the oldest steps are left out"() {
    const store = storeOf(), text = opened("");
    const kept = undoStoreOf(text, store);
    await kept.open("book");
    for (let n = 1; n <= 5; n += 1) typed(text, 0, text.lines.length, `${n}`.repeat(300_000), "");
    kept.keep();
    const next = opened(...text.lines);
    await undoStoreOf(next, store).open("book");
    same([undone(next)[0], next.undo()], ["4", null]);
    const full = undoStoreOf(opened("a"), storeOf(10));
    await full.open("book");
    full.keep();
  },

  "texts that differ have other names"() {
    const texts = [["a", "b"], ["ab"], ["b", "a"], ["a", "b", ""], ["a", "c"]], one = new Prints();
    const names = texts.map((lines) => new Prints().of(lines));
    same([new Set(names).size, new Prints().of(["a", "b"])], [5, names[0]]);
    same(texts.map((lines) => one.of(lines)), names);
  },

  "the names of long texts are found a slice at a time, also between edits"() {
    const lines = Array.from({ length: 5000 }, (_, n) => `line ${n}`), some = new Prints(), { charCodeAt } = String.prototype;
    let count = 0, isKnown = false;
    String.prototype.charCodeAt = function (at) {
      count += 1;
      return charCodeAt.call(this, at);
    };
    try {
      while (!isKnown) {
        const before = count;
        isKnown = some.learn(lines, -1);
        if (count - before > 256 * "line 1234".length) throw new Error(`${count - before} characters in a slice`);
      }
    } finally {
      String.prototype.charCodeAt = charCodeAt;
    }
    same(some.of(lines), new Prints().of(lines));
    const other = new Prints();
    for (const now of [lines, lines.slice(1), ["a", ...lines], lines.slice(0, 2000), [], ["b", ...lines.slice(9)]]) {
      other.learn(now, -1);
      other.learn(now, -1);
      same(some.of(now), new Prints().of(now));
    }
    same(other.of(lines), new Prints().of(lines));
  },

  async "after a rest all is kept, a slice at a time"() {
    const lines = Array.from({ length: 5000 }, (_, n) => `line ${n}`), text = opened(...lines), store = storeOf(), kept = undoStoreOf(text, store);
    await kept.open("book");
    typed(text, 2500, 2501, "CDE");
    let slices = 0;
    const learn = kept.prints.learn.bind(kept.prints);
    kept.prints.learn = (those, milliseconds) => ((slices += 1), learn(those, milliseconds < Infinity ? -1 : milliseconds));
    kept.prepare();
    while (!store.getItem(kept.key)) await new Promise((then) => setTimeout(then, 1));
    same(slices > 10, true);
    const next = opened(...text.lines);
    await undoStoreOf(next, store).open("book");
    same(undone(next), lines.join(""));
  },

  async "of a text that is kept again only the lines are read that became others"() {
    const text = opened(...Array.from({ length: 5000 }, (_, n) => `line ${n}`)), { charCodeAt } = String.prototype;
    const kept = undoStoreOf(text, storeOf());
    await kept.open("book");
    kept.keep();
    typed(text, 2500, 2501, "CDE", "FGA");
    let count = 0;
    String.prototype.charCodeAt = function (at) {
      count += 1;
      return charCodeAt.call(this, at);
    };
    try {
      kept.keep();
    } finally {
      String.prototype.charCodeAt = charCodeAt;
    }
    same([count > 0, count <= 12], [true, true]);
  },

  async "a download has the bytes of the book"() {
    const halves = Array.from({ length: 256 }, (_, n) => n).filter((n) => n < 32 && n !== 9 && n !== 10);
    const lines = ["a\t\u00e9\ud834\udd1e", String.fromCharCode(...halves.map((n) => 0xdc00 + n)), "\udc0a\udc41\ud800", ""];
    const text = [97, 9, 0xc3, 0xa9, 0xf0, 0x9d, 0x84, 0x9e], sign = [0xef, 0xbf, 0xbd], mark = [0xef, 0xbb, 0xbf];
    const bytes = async (state) => [...new Uint8Array(await blobOf(lines, state).arrayBuffer())];
    same(await bytes({ mark: false, returns: false }), [...text, 10, ...halves, 10, ...sign, ...sign, ...sign, 10]);
    same(await bytes({ mark: true, returns: true }), [...mark, ...text, 13, 10, ...halves, 13, 10, ...sign, ...sign, ...sign, 13, 10]);
    const windows = await blobOf(["T:\u00e9\udc01", "\u00ff\u2019", "\u03a9\u00e9", "\u0093"], { mark: false, returns: true, letters: "windows-1252" }).arrayBuffer();
    same([...new Uint8Array(windows)], [84, 58, 0xe9, 1, 13, 10, 0xff, 0x92, 13, 10, 0xce, 0xa9, 0xc3, 0xa9, 13, 10, 0xc2, 0x93]);
  },
};

await run(tests);
process.exit(0);
