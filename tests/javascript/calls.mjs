// Tries the calls of the package in Node: node calls.mjs PACKAGE. Each test prints a line, `ok` or `FAILED`, with its name.

import { readFileSync } from "node:fs";
import { pathToFileURL } from "node:url";

import { run, same } from "../page/testing.mjs";

const folder = process.argv[2];
const load = (name) => import(pathToFileURL(`${folder}/${name}`));
const { AbcError, EditError, Engine, Session, TrapError, isSupported } = await load("index.js");
const { WorkerSession } = await load("worker.js");
const faults = JSON.parse(readFileSync(new URL("../../python/abc2midi_live_clients/common/faults.json", import.meta.url)));

const HEADER = readFileSync(new URL("../../c/abc2midi_live.h", import.meta.url), "utf-8");
const SCALE = "X:1\nT:Scale\nK:C\nCDEF GABc|\n";
// A module with the function `t`, which stops.
const TRAP = new Uint8Array([0, 97, 115, 109, 1, 0, 0, 0, 1, 4, 1, 96, 0, 0, 3, 2, 1, 0, 7, 5, 1, 1, 116, 0, 0, 10, 5, 1, 3, 0, 0, 11]);
const trap = new WebAssembly.Instance(new WebAssembly.Module(TRAP)).exports.t;
const { instantiate } = WebAssembly;
const text = (bytes) => new TextDecoder().decode(bytes);
const bytes = (of) => new TextEncoder().encode(of);
const nothing = { written: [], removed: [] };

/** The name of the error that a call throws or rejects with, or `nothing`. */
async function thrown(call) {
  try {
    await call();
  } catch (error) {
    return error.name;
  }
  return "nothing";
}

/** A session with a text. */
async function sessionOf(...texts) {
  const session = await Session.open();
  for (const one of texts) session.insert(session.lineCount + 1, one);
  return session;
}

/** All that a session has. */
const state = (it) => [it.lines, it.numbers.map((number) => it.output(number)), it.titles, it.faults, it.report, it.work];

/** What `WebAssembly.instantiate` makes, with a call that stops the engine. */
async function stopping(...words) {
  const { instance } = await instantiate(...words);
  return { instance: { exports: { ...instance.exports, abc_live_replace: trap } } };
}

await run({
  "the shared engine is loaded again after it stopped, or was not loaded": async () => {
    WebAssembly.instantiate = async () => { throw new Error("no network"); };
    same(await thrown(() => Session.open()), "Error");
    WebAssembly.instantiate = stopping;
    const session = await sessionOf(SCALE);
    same(await thrown(() => session.replace(1, 1, "X:2")), "TrapError");
    WebAssembly.instantiate = instantiate;
    const [second, third] = await Promise.all([Session.open(), Session.open()]);
    same(second.setText(SCALE), { written: [1], removed: [] });
    same(second.replace(1, 1, "X:2"), { written: [2], removed: [1] });
    for (const it of [session, second, third]) it.close();
  },
  "the first MIDI file": async () => {
    const session = await Session.open();
    same(session.setText(SCALE), { written: [1], removed: [] });
    same(text(session.output(1).subarray(0, 4)), "MThd");
    same([session.numbers, session.titles, session.faults], [[1], [{ number: 1, text: "Scale", bytes: bytes("Scale") }], []]);
    session.close();
  },
  "a new session has nothing": async () => {
    const session = await Session.open();
    same(state(session), [[], [], [], [], nothing, { scanned: 0, folded: 0, built: 0 }]);
    same([session.output(0), session.lineCount], [null, 0]);
    session.close();
  },
  "edits by lines, as text, bytes and arrays": async () => {
    const session = await sessionOf(SCALE);
    same(session.replace(4, 4, bytes("C2|\n")), { written: [1], removed: [] });
    same(session.insert(5, ["", "X:2", bytes("K:C"), "D"]), { written: [2], removed: [] });
    same(session.lines, ["X:1", "T:Scale", "K:C", "C2|", "", "X:2", "K:C", "D"]);
    same(session.delete(1, 4), { written: [], removed: [1] });
    same(session.replace(1, 4, ""), { written: [], removed: [2] });
    same(session.lines, []);
    session.close();
  },
  "refused edits change nothing": async () => {
    const session = await sessionOf(SCALE);
    const before = state(session);
    const long = "C".repeat(65536), many = "\n".repeat(1048577);
    const refused = {
      BadRange: [() => session.insert(0, "C"), () => session.insert(6, long), () => session.replace(2, 1, ""), () => session.replace(4, 5, many),
        () => session.delete(0, 1), () => session.delete(5, 5), () => session.insert(-1, "C"), () => session.insert(2 ** 32 + 1, "C")],
      BadLine: [() => session.insert(1, long), () => session.insert(1, long + many), () => session.setText(long)],
      TooLarge: [() => session.insert(1, many), () => session.replace(1, 1, many), () => session.setText(many)],
      TypeError: [() => session.insert("1", "C"), () => session.insert(1.5, "C"), () => session.insert(1, 7), () => session.insert(1, ["C\n"])],
    };
    for (const [name, calls] of Object.entries(refused)) {
      for (const call of calls) same([await thrown(call), state(session)], [name, before]);
    }
    session.close();
  },
  "a refused edit is an EditError with a sentence": async () => {
    const session = await Session.open();
    try {
      session.delete(1, 1);
      same("no error", "an error");
    } catch (error) {
      same([error instanceof EditError, error instanceof AbcError, error instanceof Error], [true, true, true]);
      same(error.message, "the text does not have these lines, or they run backwards");
    }
    session.close();
  },
  "numbers without a file": async () => {
    const session = await sessionOf(SCALE);
    same([0, 2, -1, 2 ** 32, 2 ** 32 + 1].map((number) => session.output(number)), [null, null, null, null, null]);
    same(await thrown(() => session.output("1")), "TypeError");
    session.close();
  },
  "lines that are not there": async () => {
    const session = await sessionOf("A\n");
    for (const number of [0, 2, -1, 2 ** 32 + 1]) {
      same([await thrown(() => session.line(number)), await thrown(() => session.lineBytes(number))], ["RangeError", "RangeError"]);
    }
    session.close();
  },
  "faults have columns in bytes and in UTF-16 units, and sentences": async () => {
    const session = await sessionOf('X:1\nK:C\n"\u00e9\u{1d11e}"&C&\n', new Uint8Array([0xe9, 10]));
    const { wrong, instead } = faults.find(({ name }) => name === "BadByte");
    const found = (line, column, utf16Column) => ({ line, column, utf16Column, name: "BadByte", wrong, instead });
    same(session.faults, [found(3, 9, 6), found(3, 11, 8), found(4, 1, 1)]);
    same([session.utf16Column(3, 11), session.byteColumn(3, 8), session.utf16Column(4, 2)], [8, 11, 2]);
    session.close();
  },
  "tokens have columns in bytes and in UTF-16 units": async () => {
    const session = await sessionOf('X:1 % one\r\nK:C\n"\u00e9\u{1d11e}"[C_E]2|\n', new Uint8Array([0xe9, 67, 10]), "\nfree\n");
    const token = (from, to, utf16From, utf16To, kind, depth = 0) => ({ from, to, utf16From, utf16To, kind, depth });
    same(session.tokens(1), [token(1, 5, 1, 5, "NumberField"), token(5, 10, 5, 10, "Comment")]);
    same(session.tokens(2), [token(1, 4, 1, 4, "KeyField")]);
    same(session.tokens(3), [token(1, 9, 1, 6, "Quoted"), token(9, 15, 6, 12, "Chord"), token(10, 11, 7, 8, "Note", 1), token(11, 13, 8, 10, "Note", 1),
      token(15, 16, 12, 13, "BarLine")]);
    same(session.tokens(4), [token(1, 2, 1, 2, "BadByte"), token(2, 3, 2, 3, "Note")]);
    same([session.tokens(5), session.tokens(6)], [[token(1, 1, 1, 1, "Blank")], [token(1, 5, 1, 5, "FreeText")]]);
    for (const number of [0, 7, -1, 2 ** 32 + 1]) same(await thrown(() => session.tokens(number)), "RangeError");
    session.close();
  },
  "the tokens of a line that is longer than the room for answers": async () => {
    const session = await sessionOf("X:1\nK:C\n", "C".repeat(65535));
    const before = session.work.scanned, tokens = session.tokens(3);
    same([tokens.length, tokens.at(-1)], [65535, { from: 65535, to: 65536, utf16From: 65535, utf16To: 65536, kind: "Note", depth: 0 }]);
    same(session.work.scanned > before, true);
    session.close();
  },
  "a worker has the same tokens": async () => {
    const session = await sessionOf(SCALE), worker = await WorkerSession.open();
    await worker.setText(SCALE);
    same(await worker.tokens(4), session.tokens(4));
    await worker.close();
    session.close();
  },
  "plays have ticks, and places with columns in bytes and in UTF-16 units": async () => {
    const session = await sessionOf('X:1\nK:C\nV:1\n"\u00e9"[CE]-|C z|\nV:2\n|:C,,,,,,,,:|\n');
    const entry = (on, off, kind, key, [joined, tied], line, from, to, back = 0) => {
      const columns = { line, from, to, utf16From: from - back, utf16To: to - back };
      return { on, off, kind, key, velocity: key === null ? null : 80, joined, tied, ...columns };
    };
    const NONE = [false, false], JOINED = [true, false], TIED = [false, true];
    const silent = (on) => entry(on, on + 240, "Note", null, NONE, 6, 3, 12), bar = (at, ...place) => entry(at, at, "Bar", null, NONE, ...place);
    const first = [entry(0, 240, "Note", 60, TIED, 4, 6, 7, 1), entry(0, 240, "Note", 64, TIED, 4, 7, 8, 1), bar(240, 4, 10, 11, 1),
      entry(240, 480, "Note", 60, JOINED, 4, 11, 12, 1), entry(480, 720, "Rest", null, NONE, 4, 13, 14, 1), bar(720, 4, 14, 15, 1)];
    same(session.play(1), [[], first, [bar(0, 6, 1, 3), silent(0), bar(240, 6, 12, 14), silent(240), bar(480, 6, 12, 14)]]);
    same([0, 2, -1, 2 ** 32 + 1].map((number) => session.play(number)), [null, null, null, null]);
    same(await thrown(() => session.play("1")), "TypeError");
    session.close();
  },
  "a play that is longer than the room of a session is whole, and is worked out twice": async () => {
    const { exports } = await WebAssembly.instantiate(new WebAssembly.Module(readFileSync(`${folder}/abc2midi_live.wasm`)));
    const calls = [], counted = (name) => [name, (...words) => { calls.push(name); return exports[name](...words); }];
    const engine = new Engine({ ...exports, ...Object.fromEntries(["abc_live_tracks", "abc_live_play"].map(counted)) });
    const session = await Session.open({ engine });
    session.insert(1, `X:1\nK:C\n${"C".repeat(300)}\n`);
    same(session.play(1)[1].map(({ on, from }) => [on, from]), Array.from({ length: 300 }, (_, n) => [240 * n, n + 1]));
    same(calls, ["abc_live_tracks", "abc_live_play"]);
    session.close();
  },
  "each entry has its own key and velocity": async () => {
    const { ENTRY_SIZE, entryAt } = await load("plays.js");
    const view = new DataView(new ArrayBuffer(129 * ENTRY_SIZE)), keys = Array.from({ length: 129 }, (_, key) => key);
    for (const key of keys) new Uint8Array(view.buffer, key * ENTRY_SIZE + 28, 3).set([1, key, 127 - (key % 128)]); // by the header
    const sounds = keys.map((key) => entryAt(view, key, () => [])).map(({ kind, key, velocity }) => ({ kind, key, velocity }));
    const wanted = keys.map((key) => (key < 128 ? { kind: "Note", key, velocity: 127 - key } : { kind: "Note", key: null, velocity: null }));
    same(sounds, wanted);
  },
  "the ties of an entry are bits": async () => {
    const { ENTRY_SIZE, entryAt } = await load("plays.js");
    const view = new DataView(new ArrayBuffer(4 * ENTRY_SIZE));
    for (const ties of [0, 1, 2, 3]) view.setUint8(ties * ENTRY_SIZE + 31, ties); // by the header
    const found = [0, 1, 2, 3].map((ties) => entryAt(view, ties, () => [])).map(({ joined, tied }) => [joined, tied]);
    same(found, [[false, false], [true, false], [false, true], [true, true]]);
  },
  "an entry has the columns of the line after an edit": async () => {
    const session = await sessionOf('X:1\nK:C\n"\u00e9"C\n');
    const places = () => [session.play(1)[1][0], session.tokens(3)[1]].map(({ from, to, utf16From, utf16To }) => [from, to, utf16From, utf16To]);
    same(places(), [[5, 6, 4, 5], [5, 6, 4, 5]]);
    session.replace(3, 3, '"ab"C\n');
    same(places(), [[5, 6, 5, 6], [5, 6, 5, 6]]);
    session.setText('X:1\nK:C\n"\u00e9"C\n');
    same(places(), [[5, 6, 4, 5], [5, 6, 4, 5]]);
    session.close();
  },
  "plays that are longer than the room for answers, and too long": async () => {
    const tune = (bars) => `X:1\nP:A1000\nK:C\nP:A\nC${"| ".repeat(bars)}\n`;
    const session = await sessionOf(tune(9));
    const [, entries] = session.play(1);
    same([entries.length, entries.at(-1).on, entries.at(-1).to], [10000, 240000, 19]);
    session.setText(tune(1000));
    same([await thrown(() => session.play(1)), session.numbers], ["PlayTooLong", [1]]);
    session.close();
  },
  "a worker has the same plays": async () => {
    const session = await sessionOf(SCALE), worker = await WorkerSession.open();
    await worker.setText(SCALE);
    same([await worker.play(1), await worker.play(2)], [session.play(1), null]);
    await worker.close();
    session.close();
  },
  "each kind of entry is that of the header": async () => {
    const { entryKindOf } = await load("plays.js");
    const kinds = [...HEADER.matchAll(/ABC_LIVE_ENTRY_(\w+) = (\d+)/g)];
    same(kinds.map(([, name, number]) => [name, Number(number)]), kinds.map((_, n) => [entryKindOf(n + 1).toUpperCase(), n + 1]));
    same(entryKindOf(kinds.length + 1), "Other");
  },
  "each kind of token is that of the header": async () => {
    const { kindOf } = await load("tokens.js");
    const kinds = [...HEADER.matchAll(/ABC_LIVE_TOKEN_(\w+) = (\d+)/g)];
    same(kinds.map(([, name]) => name), kinds.map((_, n) => kindOf(n + 1).replace(/(?<=[a-z])[A-Z]/g, "_$&").toUpperCase()));
    same([kinds.map(([, , number]) => Number(number)), kindOf(kinds.length + 1)], [kinds.map((_, n) => n + 1), "Other"]);
  },
  "each fault of the program has its sentences": async () => {
    const { SENTENCES } = await load("faults.js");
    const wanted = faults.filter((fault) => fault.of === "program").map(({ name, wrong, instead }) => [name, { wrong, instead }]);
    same(Object.entries(SENTENCES), wanted);
  },
  "texts that are not UTF-8 keep their bytes": async () => {
    const title = new Uint8Array([0x54, 0x3a, 0x63, 0x61, 0x66, 0xe9]);
    const session = await sessionOf("X:1\n", title, "K:C\n");
    same(session.titles, [{ number: 1, text: "caf\u00e9", bytes: title.slice(2) }]);
    same([session.line(2), session.lineBytes(2)], ["T:caf\u00e9", title]);
    session.close();
  },
  "titles of some tunes are a slice of all": async () => {
    const session = await sessionOf(...[1, 2, 3, 4].map((number) => `X:${number}\nT:Tune ${number}\nK:C\n\n`));
    for (const [start, stop] of [[0, 4], [1, 3], [3, 9], [2], [4, 4], [3, 1], [-2, 4], [0, -1], [undefined, 2]]) same(session.titlesIn(start, stop), session.titles.slice(start, stop));
    same(session.titlesIn(1, 2), [{ number: 2, text: "Tune 2", bytes: bytes("Tune 2") }]);
    session.close();
  },
  "a string of an edit becomes the same bytes, short or long, and after the memory grew": async () => {
    const engine = await Engine.load(readFileSync(`${folder}/abc2midi_live.wasm`)), session = await Session.open({ engine });
    const before = engine.memoryBytes, euro = "\u20ac";
    for (const text of ["%", "% \u00e9\u20ac\u{1d11e}\ud800.", euro.repeat(1365), euro.repeat(1366), "%\n".repeat(50000), "% \udc00\u00e9"]) {
      session.insert(1, text);
      same(session.lineBytes(1), bytes(text.split("\n")[0]));
    }
    same([engine.memoryBytes > before, session.lineCount], [true, 50005]);
    session.close();
  },
  "setText makes few edits and one report": async () => {
    const session = await Session.open();
    const book = (...bodies) => bodies.map((body, n) => `X:${n + 1}\nK:C\n${body}|\n`).join("\n");
    same(session.setText(book("C", "D", "E")), { written: [1, 2, 3], removed: [] });
    same(session.setText(book("C", "D", "E")), nothing);
    const before = session.work;
    same(session.setText(book("C2", "D", "E2")), { written: [1, 3], removed: [] });
    same(session.work.scanned - before.scanned <= 4, true);
    same(session.setText(book("C2", "D")), { written: [], removed: [3] });
    same(session.report, { written: [], removed: [3] });
    same(session.lines, book("C2", "D").split("\n").slice(0, -1));
    session.close();
  },
  "setText after other edits, with a byte order mark, and to nothing": async () => {
    const session = await sessionOf(SCALE);
    session.setText(`\ufeff${SCALE.replace("CDEF", "c")}`);
    session.insert(1, ["% words"]);
    same(session.setText(bytes(SCALE)), { written: [1], removed: [] });
    same(session.lines, SCALE.split("\n").slice(0, -1));
    same(session.setText(""), { written: [], removed: [1] });
    same(session.lineCount, 0);
    session.close();
  },
  "a setText of two edits that is refused changes nothing": async () => {
    const session = await sessionOf("X:1\nK:C\nC\n\nX:2\nK:C\nD\n");
    const before = state(session);
    same(await thrown(() => session.setText(`X:1\nK:C\nE\n\nX:2\nK:C\n${"C".repeat(65536)}\n`)), "BadLine");
    same(state(session), before);
    session.close();
  },
  "a number that moves from one edit to another is written and not removed": async () => {
    const session = await sessionOf("X:1\nK:C\nC\n\nX:2\nK:C\nD\n\nX:3\nK:C\nE\n");
    same(session.setText("X:4\nK:C\nC\n\nX:2\nK:C\nD\n\nX:1\nK:C\nE\n"), { written: [1, 4], removed: [3] });
    session.close();
  },
  "closed sessions say so": async () => {
    const session = await sessionOf(SCALE);
    session.close();
    session.close();
    const calls = [() => session.insert(1, ""), () => session.setText(""), () => session.output(1), () => session.numbers, () => session.titles];
    calls.push(() => session.tokens(1), () => session.play(1), () => session.titlesIn(0, 1));
    calls.push(() => session.faults, () => session.lines, () => session.line(1), () => session.report, () => session.work, () => session.lineCount);
    for (const call of calls) same(await thrown(call), "ClosedError");
  },
  "a session disposes of itself": async () => {
    const session = await Session.open();
    session[Symbol.dispose]();
    same(await thrown(() => session.numbers), "ClosedError");
  },
  "sessions share an engine, or have one of their own": async () => {
    const engine = await Engine.load(readFileSync(`${folder}/abc2midi_live.wasm`));
    const [one, two, other] = [await Session.open({ engine }), await Session.open({ engine }), await Session.open()];
    one.setText(SCALE);
    other.setText(SCALE);
    same([two.numbers, one.output(1)], [[], other.output(1)]);
    one.close();
    two.setText(SCALE);
    same(two.output(1), other.output(1));
    for (const session of [two, other]) session.close();
  },
  "small edits share one block, which also grows; a large one has its own": async () => {
    const { exports } = await WebAssembly.instantiate(new WebAssembly.Module(readFileSync(`${folder}/abc2midi_live.wasm`)));
    const blocks = new Map();
    let calls = 0;
    const malloc = (size) => {
      const at = exports.malloc(size);
      blocks.set(at, Number(size));
      calls += 1;
      return at;
    };
    const free = (at) => {
      blocks.delete(at);
      exports.free(at);
    };
    const engine = new Engine({ ...exports, malloc, free });
    const [one, two] = [await Session.open({ engine }), await Session.open({ engine })];
    const opened = calls, sizes = [...blocks.values()];
    for (const session of [one, two]) for (const line of ["C|", "D|", "E|"]) same(session.setText(SCALE + line), { written: [1], removed: [] });
    same([calls, [...blocks.values()]], [opened + 1, [...sizes, 4096]]);
    one.insert(1, "%".repeat(5000));
    same([calls, [...blocks.values()]], [opened + 2, [...sizes, 8192]]);
    one.insert(1, "\n".repeat(70000));
    same([calls, [...blocks.values()]], [opened + 3, [...sizes, 8192]]);
    same([one.output(1), one.lineCount], [two.output(1), 70006]);
    for (const session of [one, two]) session.close();
  },
  "an engine that stops refuses all later calls, and another one takes its place": async () => {
    const { exports } = await WebAssembly.instantiate(new WebAssembly.Module(readFileSync(`${folder}/abc2midi_live.wasm`)));
    let stops = false;
    const engine = new Engine({ ...exports, abc_live_replace: (...words) => (stops ? trap() : exports.abc_live_replace(...words)) });
    const [session, beside] = [await Session.open({ engine }), await Session.open({ engine })];
    const mine = bytes(SCALE);
    session.insert(1, mine);
    stops = true;
    const calls = [() => session.replace(1, 1, mine), () => session.insert(1, mine), () => session.output(1), () => beside.numbers];
    for (const call of calls) same(await thrown(call), "TrapError");
    same([engine.isStopped, text(mine)], [true, SCALE]);
    session.close();
    same(await thrown(() => session.numbers), "ClosedError");
    same(await thrown(() => Session.open({ engine })), "TrapError");
    const another = await Session.open();
    same(another.setText(mine), { written: [1], removed: [] });
    another.close();
  },
  "a worker has the same calls": async () => {
    same(WorkerSession.isSupported(), isSupported());
    const [session, worker] = [await Session.open(), await WorkerSession.open()];
    const given = bytes(SCALE);
    const calls = [(it) => it.setText(given), (it) => it.insert(5, ["X:2", "K:C", "D?"]), (it) => it.replace(4, 4, "E|"), (it) => it.delete(1, 1)];
    calls.push((it) => it.report, (it) => it.output(2), (it) => it.output(1), (it) => it.numbers, (it) => it.titles, (it) => it.faults);
    calls.push((it) => it.lineCount, (it) => it.lines, (it) => it.line(2), (it) => it.lineBytes(2), (it) => it.utf16Column(2, 3));
    calls.push((it) => it.byteColumn(2, 3), (it) => it.work, (it) => it.titlesIn(0, 1), (it) => it.titlesIn(1));
    for (const call of calls) same(await call(worker), await call(session));
    const wrong = [(it) => it.delete(0, 0), (it) => it.insert(1, "C".repeat(65536)), (it) => it.line(99), (it) => it.insert("1", "")];
    for (const call of wrong) same(await thrown(() => call(worker)), await thrown(() => call(session)));
    same(text(given), SCALE);
    session.close();
    await worker.close();
    same(await thrown(() => worker.numbers), "ClosedError");
    await worker.close();
  },
  "calls of a worker that closes are rejected": async () => {
    const worker = await WorkerSession.open();
    const asked = thrown(() => worker.setText(SCALE));
    await worker.close();
    same(await asked, "ClosedError");
  },
  "a worker that cannot load the module says so": async () => {
    same(await thrown(() => WorkerSession.open({ module: new Uint8Array(4) })), "AbcError");
    same(await thrown(() => WorkerSession.open({ module: "file:///nowhere/a.wasm" })), "AbcError");
  },
});
