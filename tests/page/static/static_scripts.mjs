// Tries the scripts of the page without a server that need no browser: its book over a stand-in for the compiler, its file, and links.
// The first argument is the folder of the page. Each test prints a line, `ok` or `FAILED`, with its name.

import { resolveObjectURL } from "node:buffer";
import { pathToFileURL } from "node:url";

import { chances, run, same } from "../testing.mjs";

/** A stand-in for the browser's locks. */
class Locks {
  constructor() {
    this.ends = new Map(); // by its name: ends the lock that is held
    this.waiting = [];
  }

  request(name, { ifAvailable = false, steal = false, signal }, act) {
    if (ifAvailable && this.ends.has(name)) return Promise.resolve(act(null));
    return new Promise((done, fail) => {
      const hold = async () => {
        this.ends.set(name, () => fail(new Error("the lock was stolen")));
        done(await act({ name }));
        this.ends.delete(name);
        this.waiting.shift()?.();
      };
      signal?.addEventListener("abort", () => {
        this.waiting = this.waiting.filter((other) => other !== hold);
        fail(signal.reason);
      });
      if (steal) this.ends.get(name)?.();
      if (steal || !this.ends.has(name)) hold();
      else this.waiting.push(hold);
    });
  }
}

Object.defineProperty(globalThis, "navigator", { value: { locks: new Locks() } });

const folder = process.argv[2];
const from = (name) => import(pathToFileURL(`${folder}/${name}.js`));
const { BookLock } = await from("static/book_lock");
const { BookStore, ChangedElsewhere } = await from("static/book_store");
const { BookText } = await from("static/book_text");
const { firstNumberHints } = await from("static/first_number");
const { Book } = await from("link/host_book");
const { HintReader } = await from("link/hint_reader");
const { CompiledBook } = await from("static/compiled_book");
const { Files } = await from("dialogs/book_saving");
const { Keeper } = await from("static/book_keeper");
const { Link } = await from("link/host_link");
const { PickedFile, pickToOpen, pickToSave } = await from("static/picked_file");
const { changed } = await from("link/finding_rows");
const { linkOf, textIn } = await from("dialogs/share_link");
const { Text } = await from("text/text");
const { WorkerBook } = await from("static/worker_book");

const bytes = (text) => new TextEncoder().encode(text);
const text = (data) => new TextDecoder().decode(data);
const pause = () => new Promise((done) => setTimeout(done, 5));

/** Waits till something comes about. */
async function until(comes) {
  const end = Date.now() + 60_000;
  while (!comes()) {
    if (Date.now() > end) throw new Error(`waited in vain for ${comes}`);
    await pause();
  }
}

/** What an act throws. */
async function thrown(act) {
  try {
    await act();
  } catch (error) {
    return error;
  }
  throw new Error("nothing was thrown");
}

/** A stand-in for a session: each line that begins `X:` is a tune with the title of its first `T:` line, or of
 * the first one before all tunes; each line with `&` has a fault. */
class Session {
  constructor() {
    this.lines = [];
    this.fails = 0; // how many calls fail
    this.refuses = false;
    this.read = 0; // titles
  }

  put(start, stop, lines) {
    if (this.refuses) throw Object.assign(new Error("an allocation failed"), { name: "OutOfMemory" });
    if (this.fails) throw Object.assign(new Error("the engine stopped"), { name: "TrapError" });
    this.lines.splice(start - 1, stop - start + 1, ...lines.map((line) => (typeof line === "string" ? line : Buffer.from(line).toString("latin1"))));
    return { written: this.numbers, removed: [] };
  }

  async insert(at, lines) {
    return this.put(at, at - 1, lines);
  }

  async replace(start, stop, lines) {
    return this.put(start, stop, lines);
  }

  async delete(start, stop) {
    return this.put(start, stop, []);
  }

  get numbers() {
    return this.lines.filter((line) => line.startsWith("X:")).map((line) => Number(line.slice(2)));
  }

  async titlesIn(start, stop) {
    const starts = this.lines.flatMap((line, n) => (line.startsWith("X:") ? [n] : []));
    const titleOf = (from, to) => this.lines.slice(from, to).find((line) => line.startsWith("T:"))?.slice(2);
    const titles = starts.map((at, n) => ({ number: this.numbers[n], text: titleOf(at, starts[n + 1]) ?? titleOf(0, starts[0]) ?? "" }));
    const read = titles.slice(start, stop);
    this.read += read.length;
    return read;
  }

  get faults() {
    const at = (line) => line.indexOf("&") + 1;
    return Promise.resolve(this.lines.flatMap((line, n) => (at(line) ? [{ line: n + 1, column: at(line), utf16Column: at(line), name: "BadByte" }] : [])));
  }

  /** Each word is a token, and so is each of its letters. */
  async tokens(number) {
    const words = [...this.lines[number - 1].matchAll(/\w+/g)].map(({ index, 0: word }) => [index + 1, index + 1 + word.length]);
    const tokens = words.flatMap(([from, to]) => [[from, to, 0], ...Array.from({ length: to - from }, (_, n) => [from + n, from + n + 1, 1])]);
    return tokens.map(([utf16From, utf16To, depth]) => ({ utf16From, utf16To, kind: "Note", depth }));
  }

  async output(number) {
    return this.numbers.includes(number) ? bytes(`file ${number}`) : null;
  }

  async close() {}
}

/** A stand-in for a file that the user picked. */
class File {
  constructor(name, content) {
    this.name = name;
    this.content = content;
  }

  async read() {
    return this.content === null ? null : bytes(this.content);
  }

  async write(data) {
    this.content = text(data);
  }
}

/** A book that is open, with what the page has over it. */
async function opened(content, { file = null, disk = null, picked = null, saving = "picked" } = {}) {
  const session = new Session();
  const pick = async () => picked ?? Promise.reject(Object.assign(new Error("cancelled"), { name: "AbortError" }));
  const book = new WorkerBook(saving, pick, new CompiledBook(async () => session));
  const window = new Text(), link = new Link(window, book);
  window.edited = () => link.soon();
  book.begin({ id: "one", name: file?.name ?? "", data: bytes(content), disk: disk === null ? null : bytes(disk), file });
  const heard = [];
  link.changed = (change) => heard.push(change);
  await link.open();
  await pause();
  const type = async (start, stop, ...lines) => {
    const place = { start: { line: 0, column: 0 }, end: { line: 0, column: 0 }, direction: "forward" };
    window.edit(start, stop, lines, place, place);
    await link.flush();
  };
  return { session, book, window, link, heard, type };
}

/** A stand-in for a file of the browser's dialog; `permissions` are the answers to the question for a permission, by its mode. */
class Handle {
  name = "a.abc";
  happened = [];

  constructor(permissions = {}) {
    this.permissions = permissions;
  }

  async queryPermission({ mode }) {
    return mode in this.permissions ? "prompt" : "granted";
  }

  async requestPermission({ mode }) {
    this.happened.push(`ask to ${mode}`);
    return this.permissions[mode];
  }

  async getFile() {
    if (this.error) throw this.error;
    return new Blob(["CDE"]);
  }

  async createWritable() {
    const { happened } = this;
    const write = async (data) => {
      if (this.error) throw this.error;
      happened.push(`write ${text(data)}`);
    };
    return { write, close: async () => happened.push("close"), abort: async () => happened.push("abort") };
  }
}

/** A stand-in for the browser's database. It has room for writes, or `isFull`. */
class Database {
  kept = { books: new Map(), contents: new Map() };
  isFull = false;

  transaction() {
    const puts = [], { isFull } = this;
    const transaction = { error: null, abort: () => setTimeout(() => transaction.onabort()) };
    transaction.objectStore = (name) => ({
      put: (row) => puts.push([name, row]),
      get: (id) => {
        const request = { result: this.kept[name].get(id) };
        setTimeout(() => {
          request.onsuccess();
          if (puts.length && isFull) transaction.error = new Error("no room");
          if (puts.length && isFull) return transaction.onabort();
          for (const [place, row] of puts) this.kept[place].set(row.id, row);
          if (puts.length) transaction.oncomplete();
        });
        return request;
      },
    });
    return transaction;
  }
}

/** What a store keeps of a book, as the page has it keep the book: the name and whether it is unsaved, after each change. */
function keptOf(book) {
  const kept = [];
  const keep = async ({ name, unsaved }) => {
    await pause();
    kept.push([name, unsaved]);
  };
  const keeper = new Keeper(book, { keep });
  book.changed = () => keeper.soon();
  book.keep = () => keeper.finish();
  return kept;
}

const TUNE = "X:1\nK:C\nC\n";

const rowsOf = ({ faults, tunes }) => ({ faults, tunes });

/** The rows of a window after a change. */
const rowsAfter = ({ faults, tunes }, change) => ({
  faults: changed(faults, change.edit, change.faults),
  tunes: changed(tunes, change.edit, change.tunes),
});

await run({
  async "an edit reaches the compiler, and what it finds comes back"() {
    const { session, heard, type, book } = await opened(TUNE);
    await type(2, 3, "C & D", "E");
    same(session.lines, ["X:1", "K:C", "C & D", "E"]);
    const { faults, tunes, written, unsaved } = heard[0], none = { at: 1, out: 0, put: [] };
    same([faults, tunes, written, unsaved], [{ at: 0, out: 0, put: [[2, 2, 3, "BadByte"]] }, none, [1], true]);
    same(text(await book.bytes("text")), "X:1\nK:C\nC & D\nE\n");
  },

  async "after edits at random a window has the rows that a new compiler finds"() {
    const lines = ["X:1", "X:2", "T:one", "T:two", "C", "C &", "", "z".repeat(66_000)], chance = chances(1);
    const some = () => Array.from({ length: chance(4) }, () => lines[chance(lines.length)]);
    for (let n = 0; n < 60; n += 1) {
      const { book } = await opened([...some(), ...some(), ...some()].join("\n"));
      let window = await book.ask("book");
      for (let edits = 0; edits < 12; edits += 1) {
        const start = chance(window.lines.length), stop = Math.min(window.lines.length, start + chance(4));
        const edit = { start, stop, lines: [...some(), "C"] };
        const change = await book.ask("edit", { version: window.version, window: "w", ...edit });
        const now = [...window.lines.slice(0, start), ...edit.lines, ...window.lines.slice(stop)];
        window = { version: change.version, lines: now, ...rowsAfter(window, change) };
        const { book: other } = await opened(now.join("\n"));
        same(rowsOf(window), rowsOf(await other.ask("book")));
      }
    }
  },

  async "an edit has the titles of the tunes read again that it may have changed"() {
    const { book, session } = await opened("T:all\nX:1\nC\nX:2\nC\nX:3\nC\nX:4\nC\n");
    let { version } = await book.ask("book");
    const read = async (start, stop, ...lines) => {
      session.read = 0;
      ({ version } = await book.ask("edit", { version, window: "w", start, stop, lines }));
      return session.read;
    };
    same([await read(4, 5, "T:two"), await read(6, 7, "X:5"), await read(6, 7), await read(0, 1, "T:any")], [1, 2, 1, 4]);
  },

  async "the second tune of a number has no file"() {
    const { book } = await opened("X:1\nX:2\nX:1\n");
    same((await book.ask("book")).tunes.map((row) => row[3]), [true, true, false]);
  },

  async "a text without a number has a hint at its first music"() {
    const sentence = "this text has no tune, so there is no file; a tune begins with a line `X:1`";
    const at = (...lines) => firstNumberHints(lines).map(([line, start, end, name, hint]) => [line, start, end === lines[line].length, name, hint === sentence]);
    const hint = (line) => [[line, 0, true, "NoTune", true]];
    same(at("Hello", "", "T:a", "M:4/4", "CDE|FGA|"), hint(4));
    same(at("From: me", "To: you", "", "T:a", "M:4/4", "K:D", "% slow", "%%MIDI program 1", 'd "Am', "ABc|"), hint(8));
    same(at("K:D", "", "I am no music", "", '|:"Am"!trill!{d}[Ace]2 [M:3/4](3abc z2:|'), hint(4));
    same([at("\ufeffT:Air", "w:la|la|la|"), at("", " \t", "Hello | you")], [hint(0), hint(2)]);
    same([at(""), at("", "  "), at("ABc|\rdef|"), at("A\0B\0c\0|\0")], [[], [], [], []]);
  },

  async "the window reads that hint when it is another, and none where a tune begins"() {
    const { book, link, type } = await opened("Hello\n\nABc|\n"), known = new Book(), reader = new HintReader(book, link, known);
    const rows = () => known.hints.map(([line, , end]) => [line, end]);
    known.open(await book.ask("book"));
    link.changed = (change) => known.change(change);
    link.told = () => reader.look();
    same(rows(), [[2, 4]]);
    await type(2, 2, "T:Air", "K:C");
    same(rows(), [[4, 4]]); // it moved with its line
    await type(4, 5, "ABc|def|");
    await until(() => JSON.stringify(rows()) === "[[4,8]]");
    await type(2, 2, "X:1");
    await until(() => rows().length === 0);
    await type(2, 3);
    await until(() => JSON.stringify(rows()) === "[[4,8]]");
  },

  async "a line that is too long is a comment for the compiler, and a fault here"() {
    const long = "C".repeat(65536), { session, book } = await opened(`X:1\n${long}\n`);
    same(session.lines, ["X:1", "%"]);
    same((await book.ask("book")).faults, [[1, 65535, 65536, "BadLine"]]);
    const wide = "é".repeat(32768), { book: other } = await opened(`X:1\n${wide}\n`);
    same((await other.ask("book")).faults.map((row) => row[3]), ["BadLine"]);
    const most = "C".repeat(65535), { session: third } = await opened(`X:1\n${most}\n`);
    same(third.lines, ["X:1", most]);
  },

  async "a tune that is too long has no file, and the next one of its number has it"() {
    const { session, book } = await opened("X:1\nX:1\n");
    Object.defineProperty(session, "faults", { get: () => Promise.resolve([{ line: 1, column: 1, utf16Column: 1, name: "TuneTooLong" }]) });
    same((await book.ask("book")).tunes.map((row) => row[3]), [false, true]);
  },

  async "a line that is too long has no tokens, and a tune that plays too much has no play"() {
    const { session, book } = await opened(`X:1\n${"C".repeat(65536)}\nDE\n`);
    session.tokens = async (number) => [{ utf16From: 1, utf16To: 1 + number, kind: "Note", depth: 0 }];
    const view = async (name) => {
      session.play = () => Promise.reject(Object.assign(new Error("why"), { name }));
      return (await book.ask("view", { version: book.version, sees: { from: 0, to: 3, tune: 1 } })).view;
    };
    const { tokens, play } = await view("PlayTooLong");
    same([tokens, play], [[[0, 1, 1, 0], [], [0, 3, 1, 0]], null]);
    same((await thrown(() => view("TrapError"))).name, "TrapError");
  },

  async "the file of a tune has an address till another file has one"() {
    const { book } = await opened(`${TUNE}X:2\n`);
    await book.bytes("midi/1");
    const first = book.address("midi/1");
    same(await resolveObjectURL(first).text(), "file 1");
    await book.bytes("midi/2");
    same([resolveObjectURL(first), book.address("midi/1"), await resolveObjectURL(book.address("midi/2")).text()], [undefined, "", "file 2"]);
  },

  async "a fault at each byte of a letter counts once"() {
    const { session, book } = await opened("X:1\né\n");
    const faults = [1, 2].map((column) => ({ line: 2, column, utf16Column: 1, name: "BadByte" }));
    Object.defineProperty(session, "faults", { get: () => Promise.resolve(faults) });
    same((await book.ask("book")).faults, [[1, 0, 1, "BadByte"]]);
  },

  async "a fault ends with the innermost token at it, and has one letter at least"() {
    const { session, book } = await opened("X:1\nCDE FG 𝄞\nCDE\n");
    const faults = [[2, 2, "LooseTie"], [2, 7, "LooseTie"], [2, 8, "BadByte"], [3, 2, "BadProgram"]];
    const told = faults.map(([line, utf16Column, name]) => ({ line, column: utf16Column, utf16Column, name }));
    Object.defineProperty(session, "faults", { get: () => Promise.resolve(told) });
    same((await book.ask("book")).faults, [[1, 1, 2, "LooseTie"], [1, 6, 7, "LooseTie"], [1, 7, 9, "BadByte"], [2, 1, 3, "BadProgram"]]);
  },

  async "an engine that stopped is started again with the whole text"() {
    const sessions = [];
    const book = new WorkerBook("downloads", async () => null, new CompiledBook(async () => sessions[sessions.push(new Session()) - 1]));
    book.begin({ id: "one", name: "", data: bytes(TUNE), disk: null, file: null });
    const { version } = await book.ask("book");
    sessions[0].fails = 1;
    const change = await book.ask("edit", { version, window: "w", start: 2, stop: 3, lines: ["D"] });
    same([sessions.length, sessions[1].lines, change.version], [2, ["X:1", "K:C", "D"], version + 1]);
  },

  async "an edit for which there is no memory is refused, and the next one is taken"() {
    const { session, link, type, window, book } = await opened(TUNE);
    const why = [];
    link.refused = (words) => why.push(words);
    session.refuses = true;
    same((await thrown(() => type(2, 3, "D"))).message, "the compiler does not take the last edit");
    session.refuses = false;
    same([why, text(await book.bytes("text"))], [["an allocation failed"], TUNE]);
    await type(2, 3, "E");
    same([window.lines, text(await book.bytes("text"))], [["X:1", "K:C", "E", ""], "X:1\nK:C\nE\n"]);
  },

  async "a save writes the file, and the text is saved"() {
    const file = new File("a.abc", TUNE), { link, type } = await opened(TUNE, { file, disk: TUNE });
    same(link.isUnsaved, false);
    await type(2, 3, "D");
    same(link.isUnsaved, true);
    await link.file("save");
    same([file.content, link.isUnsaved], ["X:1\nK:C\nD\n", false]);
    await type(2, 3, "E");
    await type(2, 3, "D");
    same(link.isUnsaved, false);
  },

  async "a save over what another program wrote is refused till the content is named"() {
    const file = new File("a.abc", TUNE), { link, type } = await opened(TUNE, { file, disk: TUNE });
    await type(2, 3, "D");
    file.content = "X:9\n";
    const error = await thrown(() => link.file("save"));
    same([error.status, link.known.disk === link.known.saved, file.content], [409, false, "X:9\n"]);
    const over = link.known.disk;
    file.content = "X:8\n";
    same([(await thrown(() => link.file("save", { over }))).status, file.content], [409, "X:8\n"]);
    await link.file("save", { over: link.known.disk });
    same([file.content, link.isUnsaved], ["X:1\nK:C\nD\n", false]);
  },

  async "a save of a file that is gone asks, and then makes it"() {
    const file = new File("a.abc", TUNE), { link, type } = await opened(TUNE, { file, disk: TUNE });
    await type(2, 3, "D");
    file.content = null;
    same([(await thrown(() => link.file("save"))).told.ask, link.known.disk], [null, null]);
    await link.file("save", { over: null });
    same(file.content, "X:1\nK:C\nD\n");
  },

  async "what another program wrote is taken if nothing is unsaved, and can be loaded if something is"() {
    const file = new File("a.abc", TUNE), { link, type, window, book } = await opened(TUNE, { file, disk: TUNE });
    file.content = "X:1\nK:G\nC\n";
    await book.follow();
    same([window.lines, link.isUnsaved], [["X:1", "K:G", "C", ""], false]);
    window.undo();
    await link.flush();
    same([window.lines, text(await book.bytes("text")), link.isUnsaved], [["X:1", "K:C", "C", ""], TUNE, true]);
    window.redo();
    await type(2, 3, "D");
    file.content = "X:1\nK:A\nC\n";
    await book.follow();
    same([window.lines, link.known.disk === link.known.saved], [["X:1", "K:G", "D", ""], false]);
    await link.file("load", { over: link.known.disk });
    same([window.lines, link.isUnsaved, link.known.disk === link.known.saved], [["X:1", "K:A", "C", ""], false, true]);
  },

  async "a file that is as it was saved asks nothing"() {
    const file = new File("a.abc", TUNE), { link, type, book } = await opened(TUNE, { file, disk: TUNE });
    await type(2, 3, "D");
    file.content = "X:9\n";
    await book.follow();
    file.content = TUNE;
    await book.follow();
    same(link.known.disk === link.known.saved, true);
  },

  async "a first save picks the file, and one that is cancelled says so"() {
    const picked = new File("b.abc", ""), { link, book } = await opened(TUNE, { picked });
    await link.file("save");
    same([picked.content, book.name, link.isUnsaved], [TUNE, "b.abc", false]);
    const { link: other } = await opened(TUNE);
    const error = await thrown(() => other.file("save"));
    same([error.message, error.status, other.isUnsaved], ["no file was picked", undefined, true]);
  },

  async "a dialog that the browser refuses says so in plain words, and the text is not lost"() {
    const refusals = ["NotAllowedError", "SecurityError", "TypeError", "AbortError"].map((name) => Object.assign(new Error("Failed to execute"), { name }));
    for (const dialog of ["showSaveFilePicker", "showOpenFilePicker"]) {
      const found = [];
      for (const error of refusals) {
        globalThis[dialog] = () => Promise.reject(error);
        const { name, message, status } = await thrown(dialog === "showSaveFilePicker" ? () => pickToSave("a.abc") : pickToOpen);
        found.push([name, message, status]);
      }
      const plain = ["Error", "the browser does not open its dialog for files", 403];
      same(found, [plain, plain, plain, ["AbortError", "Failed to execute", undefined]]);
    }
    const { link, book } = await opened(TUNE);
    book.pick = pickToSave;
    globalThis.showSaveFilePicker = () => Promise.reject(refusals[1]);
    const said = [], asked = [], questions = { withdraw() {}, find() {}, ask: (question) => asked.push([question.words, Object.keys(question.answers)]) };
    const files = new Files({ link, book, questions, say: (words) => said.push(words), doubt: () => undefined });
    await files.save();
    await files.saveElsewhere();
    same(said, Array(2).fill("Not saved: the browser does not open its dialog for files."));
    same(asked, Array(2).fill(["The text is not saved: the browser does not open its dialog for files.", ["Download the text", "Close"]]));
    same([link.isUnsaved, text(await book.bytes("text"))], [true, TUNE]);
  },

  async "a file that is opened in place of the text keeps its bytes, is saved without a question, and can be taken back"() {
    const { link, type, window, book } = await opened(TUNE), content = Uint8Array.from([...bytes("X:2\r\nT:caf"), 0xe9, 13, 10, ...bytes("C\r\n")]);
    const file = { name: "b.abc", read: async () => file.content, write: async (data) => (file.content = data), content }, names = [];
    book.renamed = () => names.push(book.name);
    await book.replace({ name: file.name, data: content, file });
    same([window.lines, link.isUnsaved, link.known.letters, names], [["X:2", "T:café", "C", ""], false, "windows-1252", ["b.abc"]]);
    await type(2, 3, "D");
    await link.file("save");
    same(Buffer.from(file.content).toString("hex"), Buffer.from("X:2\r\nT:caf\xe9\r\nD\r\n", "latin1").toString("hex"));
    window.undo();
    window.undo();
    await link.flush();
    same([window.lines, link.isUnsaved], [["X:1", "K:C", "C", ""], true]);
  },

  async "a download is a save, if the browser writes no files"() {
    const { link, book } = await opened(TUNE, { saving: "downloads" });
    same(link.isUnsaved, true);
    await book.downloaded();
    same(link.isUnsaved, false);
  },

  async "a save that is cancelled leaves the next one free, and one is over when the browser keeps it"() {
    const { link, book } = await opened(TUNE), kept = keptOf(book);
    same([(await thrown(() => link.file("save"))).message, kept], ["no file was picked", []]);
    book.pick = async () => new File("b.abc", "");
    await link.file("save");
    same([kept, link.isUnsaved], [[["b.abc", false]], false]);
  },

  async "each change is kept a moment later"() {
    const { type, book } = await opened(TUNE), kept = keptOf(book);
    await type(2, 3, "D");
    await until(() => kept.length === 1);
    await type(2, 3, "E");
    await until(() => kept.length === 2);
  },

  async "a text that the browser does not keep is reported"() {
    const { book } = await opened(TUNE), why = [], keeper = new Keeper(book, { keep: () => Promise.reject(new Error("no room")) });
    keeper.failed = (words) => why.push(words);
    keeper.soon();
    await keeper.finish();
    same(why, ["no room"]);
  },

  async "a change that is not kept when another tab takes the book becomes a book of its own"() {
    const { book } = await opened(TUNE);
    for (const isChanged of [true, false]) {
      const kept = [], keeper = new Keeper(book, { keep: async ({ id }, { data }) => kept.push([id === "one", text(data)]) });
      if (isChanged) keeper.soon();
      await keeper.giveUp();
      keeper.soon();
      await keeper.finish();
      same(kept, isChanged ? [[false, TUNE]] : []);
    }
  },

  async "a book for which there was no room is kept later, and one that another tab changed is not"() {
    const database = new Database(), store = new BookStore(database), other = new BookStore(database);
    const keep = (own, name) => own.keep({ id: "one", name }, { data: bytes(name) });
    await keep(store, "first");
    database.isFull = true;
    same((await thrown(() => keep(store, "second"))).message, "no room");
    database.isFull = false;
    await keep(store, "third");
    const error = await thrown(() => keep(other, "other"));
    same([error instanceof ChangedElsewhere, database.kept.books.get("one").name, text(database.kept.contents.get("one").data)], [true, "third", "third"]);
  },

  async "a picked file is written in one step, with the user's permission"() {
    const free = new Handle(), asked = new Handle({ read: "granted", readwrite: "granted" }), refused = new Handle({ read: "denied", readwrite: "denied" });
    for (const handle of [free, asked]) await new PickedFile(handle).write(bytes("CDE"));
    same([free.happened, asked.happened], [["write CDE", "close"], ["ask to readwrite", "write CDE", "close"]]);
    for (const act of ["read", "write"]) same((await thrown(() => new PickedFile(refused)[act](bytes("CDE")))).message, "the browser does not permit it");
    same(refused.happened, ["ask to read", "ask to readwrite"]);
    same([await new PickedFile(free).isReadable(), await new PickedFile(asked).isReadable()], [true, false]);
    free.happened = [];
    free.error = new Error("no room");
    same([(await thrown(() => new PickedFile(free).write(bytes("DEF")))).message, free.happened], ["no room", ["abort"]]);
  },

  async "a picked file that is gone is none, and another failure is one"() {
    const handle = new Handle(), file = new PickedFile(handle);
    same(text(await file.read()), "CDE");
    handle.error = Object.assign(new Error("gone"), { name: "NotFoundError" });
    same(await file.read(), null);
    handle.error = new Error("why");
    same((await thrown(() => file.read())).message, "why");
  },

  async "a download is over when the browser keeps it"() {
    const { link, book } = await opened(TUNE, { saving: "downloads" }), kept = keptOf(book);
    const over = book.downloaded();
    same([link.isUnsaved, kept], [true, []]);
    await over;
    same([link.isUnsaved, kept], [false, [["", false]]]);
  },

  async "the browser keeps that a file has the text already"() {
    const file = new File("a.abc", TUNE), { link, type, book } = await opened(TUNE, { file, disk: TUNE }), kept = keptOf(book);
    await type(2, 3, "D");
    await book.keep();
    file.content = "X:1\nK:C\nD\n";
    await book.follow();
    await link.file("load", { over: link.known.disk });
    await book.keep();
    same(kept, [["a.abc", true], ["a.abc", false]]);
  },

  async "the page may compare its text with that saved last and with the file"() {
    const file = new File("a.abc", TUNE), { book, type } = await opened(TUNE, { file, disk: TUNE });
    await type(2, 3, "D");
    file.content = "X:1\nK:C\nE\n";
    same([(await book.ask("saved")).lines, (await book.ask("disk")).lines], [["X:1", "K:C", "C", ""], ["X:1", "K:C", "E", ""]]);
    file.content = null;
    const why = await book.ask("disk").catch((error) => [error.status, error.message]);
    same(why, [404, "the file is gone"]);
  },

  async "there are no sampled instruments, and nothing to install"() {
    const { book } = await opened(TUNE);
    same(await book.ask("font"), { name: "", isPlain: true });
  },

  async "a book in Windows-1252 stays so, and a save in UTF-8 makes it UTF-8"() {
    const content = Uint8Array.from([...bytes("X:1\nT:"), 0x93, ...bytes("caf"), 0xe9, 0x94, 10]), file = new File("a.abc", "");
    Object.assign(file, { read: async () => file.content, write: async (data) => (file.content = data), content });
    const book = new WorkerBook("picked", async () => file, new CompiledBook(async () => new Session()));
    book.begin({ id: "one", name: "a.abc", data: content, disk: content, file });
    const { letters, lines, version } = await book.ask("book");
    same([letters, lines], ["windows-1252", ["X:1", "T:“café”", ""]]);
    const change = await book.ask("edit", { version, window: "w", start: 1, stop: 2, lines: ["T:“cafés”"] });
    await book.ask("save", { version: change.version });
    same(Buffer.from(file.content).toString("hex"), Buffer.from("X:1\nT:\x93caf\u00e9s\x94\n", "latin1").toString("hex"));
    await book.ask("save-in-utf-8", { version: change.version });
    same([text(file.content), (await book.ask("state")).letters], ["X:1\nT:“cafés”\n", "utf-8"]);
  },

  async "a tab that answers stores its book before it gives it up, and one that does not answer loses it"() {
    const [one, two, three] = [1, 2, 3].map(() => new BookLock("/", "id", 100)), happened = [];
    same([await one.take(), await two.take()], [true, false]);
    one.wanted = async () => {
      await new Promise((done) => setTimeout(done, 300));
      happened.push("stored");
    };
    one.lost = () => happened.push("lost");
    await two.move();
    same([happened, one.isHeld, two.isHeld], [["stored", "lost"], false, true]);
    two.channel.onmessage = null;
    two.lost = () => happened.push("stolen");
    await three.move();
    await pause();
    same([happened, two.isHeld, three.isHeld], [["stored", "lost", "stolen"], false, true]);
    for (const { channel } of [one, two, three]) channel.close();
  },

  async "a link has a text, packed and plain, and a bad one says why"() {
    const page = "https://example.org/abc/?x#old", tune = "X:1\nT:Für 𝄞\nK:C\nC\n".repeat(20);
    const packed = await linkOf(page, tune);
    same([packed.startsWith("https://example.org/abc/?x#abc-z="), /^[\w-]*$/.test(packed.split("=")[1]), packed.length < 200], [true, true, true]);
    same(await textIn(new URL(packed).hash), tune);
    const { CompressionStream } = globalThis;
    delete globalThis.CompressionStream;
    const plain = await linkOf(page, tune);
    globalThis.CompressionStream = CompressionStream;
    same([plain.includes("#abc="), await textIn(new URL(plain).hash)], [true, tune]);
    same([await textIn(""), await textIn("#other")], [null, null]);
    same((await thrown(() => textIn(new URL(packed).hash.slice(0, -9)))).message, "it is not whole");
    same((await thrown(() => textIn("#abc-z=%"))).message, "it is not whole");
    same((await thrown(() => textIn("#abc-z="))).message, "it is not whole");
  },

  async "a short link that unpacks to a long text is refused"() {
    const link = await linkOf("https://example.org/", "C".repeat(1_000_001)).catch(() => null);
    const fits = await linkOf("https://example.org/", "C".repeat(900_000));
    same([link !== null, (await textIn(new URL(fits).hash)).length], [true, 900_000]);
    same((await thrown(() => textIn(new URL(link).hash))).message, "it is not whole");
  },

  async "lines with the same letters keep their own bytes: those before the typed ones, after them, and between them"() {
    const latin1 = Uint8Array.of(0x54, 0x3a, 0xe9), utf8 = bytes("T:é");
    const rows = [latin1, utf8, latin1, bytes("C"), utf8, Uint8Array.of(0xe9)];
    const book = BookText.of(Uint8Array.from(rows.flatMap((row, n) => (n ? [10, ...row] : [...row]))));
    const put = (start, stop, ...lines) => new BookText(false, book.editOf(start, stop, lines).lines, false).bytes;
    same(Buffer.from(put(0, 3, "T:é", "T:é", "D")).toString("hex"), Buffer.from("T:\xe9\nT:\xc3\xa9\nD", "latin1").toString("hex"));
    same(Buffer.from(put(0, 3, "D", "T:é", "T:é")).toString("hex"), Buffer.from("D\nT:\xc3\xa9\nT:\xe9", "latin1").toString("hex"));
    same(Buffer.from(put(3, 6, "D", "T:é", "E")).toString("hex"), Buffer.from("D\nT:\xc3\xa9\nE", "latin1").toString("hex"));
  },

  async "the bytes of a text without letters beyond ASCII are those of its lines"() {
    same(text(BookText.of(bytes("\ufeffa\r\nb")).bytes), text(bytes("\ufeffa\r\nb")));
  },
});
