// The book of a page without a server: its text, what the compiler finds in it, and its file. It is asked as a server is.

import { changed, difference as rowsDifference, without } from "../link/finding_rows.js";
import { joined } from "../link/version_ancestry.js";
import { difference } from "../text/line_edits.js";
import { BookText } from "./book_text.js";
import { CompiledBook } from "./compiled_book.js";
import { SENTENCES } from "./fault_sentences.js";
import { firstNumberHints } from "./first_number.js";

/** @typedef {import("../link/finding_rows.js").Edit} Edit
 * @typedef {import("./compiled_book.js").Rows} Rows
 * What asks for a change: a version and a window, and what is asked.
 * @typedef {{ version: number, window: string } & Partial<Edit> & { has?: import("../link/version_ancestry.js").Edits, over?: string | null, sees?: import("../link/tokens_and_plays.js").Want | null }} Asked
 * A content of the file, with a name that no other content had; the name is null if there is no file.
 * @typedef {{ name: string | null, text: BookText }} Content
 * A file that the user picked.
 * @typedef {object} BookFile
 * @property {string} name
 * @property {() => Promise<Uint8Array | null>} read reads it; null if it is gone
 * @property {(bytes: Uint8Array) => Promise<void>} write
 * A book as it begins: its text, and that of its file, null without one.
 * @typedef {{ id: string, name: string, data: Uint8Array, disk: Uint8Array | null, file: BookFile | null }} Opening */

const NO_SCORE = "No score here: the program that draws it runs in no browser.";
const GONE = "the file is gone";
const PLAIN_SOUNDS = { name: "", isPlain: true };
const EMPTY = new BookText(false, [""], false);

export class WorkerBook {
  /** `saving` is how text becomes a file, `pick` lets the user pick a file to save into; it gets a name to propose.
   * @param {import("../link/book_host.js").Saving} saving
   * @param {(name: string) => Promise<BookFile>} pick
   * @param {CompiledBook} compiled */
  constructor(saving, pick, compiled = new CompiledBook()) {
    this.called = "compiler";
    this.offers = { saving, score: false, zip: false };
    this.canProve = true;
    this.pick = pick;
    this.compiled = compiled;
    this.run = String(Math.random());
    this.version = this.moment = 0; // the moment counts saves and what is known of the file, too
    /** @type {import("../link/version_ancestry.js").Edits} */
    this.has = { [this.run]: 0 }; // the edits that are in the text
    this.contents = 0; // of files that were seen
    this.id = "";
    this.name = ""; // of the file, "" without one
    this.text = EMPTY;
    /** @type {Content} */
    this.saved = { name: null, text: EMPTY }; // what was read or saved last
    this.present = this.saved; // what the file has now
    /** @type {BookFile | null} */
    this.file = null;
    /** @type {Rows} */
    this.rows = { faults: [], tunes: [] };
    /** @type {import("../link/finding_rows.js").FaultRow[]} */
    this.hintRows = []; // at a text without tunes, the only hints of this page
    this.hints = 0; // how often there were others than those that moved with their lines
    this.isUnsaved = false;
    /** @type {Map<string, string>} */
    this.addresses = new Map(); // of the files that were read, by their names
    /** @type {(value?: unknown) => void} */
    this.begun = () => {};
    /** @type {Promise<unknown>} */
    this.turn = new Promise((begun) => (this.begun = begun)); // when the call before is done: the first waits for the book
    /** @type {(news: any) => void} */
    this.heard = () => {};
    this.renewed = () => {};
    this.changed = () => {}; // the text, its name or its file is another one
    this.keep = async () => {}; // keeps the book in the browser's store
    this.isKept = () => false; // whether that store has the text
    this.renamed = () => {}; // the book has another name
  }

  // ---- what a host has

  /** The address of a file that was read.
   * @type {(name: string) => string} */
  address(name) {
    return this.addresses.get(name) ?? "";
  }

  /** @type {(name: string, body?: object) => Promise<any>} */
  async ask(name, body = {}) {
    const asked = /** @type {Asked} */ (body);
    if (name === "score") return { missing: true, why: NO_SCORE };
    if (name === "font") return PLAIN_SOUNDS;
    if (name.startsWith("changes/")) return { changes: [] };
    if (name.startsWith("news/")) return { state: this.state, changes: [], room: true };
    return this.inTurn(async () => {
      if (name === "book") return this.snapshot();
      if (name === "saved") return { lines: this.saved.text.shownLines };
      if (name === "disk") return this.onDisk();
      if (name === "edit") return this.edit(asked);
      if (name === "view") return this.view(asked);
      if (name === "hints") return { version: this.version, hints: this.hints, rows: this.hintRows };
      if (name === "load") return this.load(asked);
      if (name === "save") return this.save(asked);
      if (name === "save-as") return this.saveElsewhere();
      if (name === "save-in-utf-8") return this.saveInUtf8(asked);
      return this.state;
    });
  }

  /** @type {(name: string) => Promise<ArrayBuffer | null>} */
  async bytes(name) {
    return this.inTurn(async () => {
      const bytes = name === "text" ? this.text.bytes : await this.compiled.midi(Number(name.split("/")[1]));
      if (bytes && name !== "text") this.givesAddress(name, bytes);
      return bytes && /** @type {ArrayBuffer} */ (bytes.slice().buffer);
    });
  }

  /** Hears what happens to the book, for as long as the page is there.
   * @type {(name: string, control: AbortController, heard: (news: any) => void) => Promise<void>} */
  hear(_, { signal }, heard) {
    this.heard = heard;
    heard({ state: this.state });
    return new Promise((_, fail) => signal.addEventListener("abort", () => fail(new Error("it is heard no more"))));
  }

  lose() {}

  /** Starts the compiler again, if it failed. */
  async prove() {
    await this.inTurn(() => this.compiled.become(this.text));
  }

  // ---- the book

  /** Begins with a book.
   * @type {(opening: Opening) => void} */
  begin({ id, name, data, disk, file }) {
    this.id = id;
    this.name = name;
    this.file = file;
    this.text = BookText.of(data);
    this.saved = this.present = disk ? this.content(BookText.of(disk)) : { name: null, text: EMPTY };
    this.isUnsaved = !this.text.isSame(this.saved.text);
    this.begun();
  }

  /** Does one thing after another.
   * @template T
   * @param {() => Promise<T>} act
   * @returns {Promise<T>} */
  inTurn(act) {
    const done = this.turn.then(act, act);
    this.turn = done.catch(() => {});
    return done;
  }

  /** The whole book, with what the file has now if nothing is unsaved. */
  async snapshot() {
    await this.compiled.become(this.text);
    this.rows = await this.compiled.rows(this.text);
    this.hintRows = this.foundHints;
    const { name, id, text, has, rows, hintRows, state } = this;
    return { name, id, lines: text.shownLines, has, ...rows, hintRows, sentences: SENTENCES, ...state };
  }

  get foundHints() {
    return this.rows.tunes.length ? [] : firstNumberHints(this.text.shownLines);
  }

  get state() {
    const { run, version, moment, text, isUnsaved, saved, present, hints } = this;
    return {
      run, version, moment, mark: text.mark, returns: text.returns, letters: text.letters, unsaved: isUnsaved,
      saved: saved.name, disk: present.name, trouble: "", windows: 1, hints,
    };
  }

  /** Replaces lines, as the page's window asks. */
  async edit(/** @type {Asked} */ { version, window, start = 0, stop = 0, lines = [], has, sees }) {
    if (version !== this.version) throw refusal(409, "the text was changed meanwhile", this.state);
    const text = this.text.edited(this.text.editOf(start, stop, lines));
    const change = await this.publish({ start, stop, lines }, text, window, has);
    return sees ? { ...change, view: await this.compiled.view(sees) } : change;
  }

  /** What is seen of the text. */
  async view(/** @type {Asked} */ { version, sees }) {
    if (version !== this.version || !sees) throw refusal(409, "the text was changed meanwhile", this.state);
    return { view: await this.compiled.view(sees) };
  }

  /** Makes another text that of the book: the change. `has` says which edits of the window the text has in it since then.
   * @param {Edit} edit
   * @param {BookText} text
   * @param {string | null} window
   * @param {import("../link/version_ancestry.js").Edits} [has]
   * @returns {Promise<import("../link/host_link.js").Change>} */
  async publish(edit, text, window, has = { [this.run]: this.version + 1 }) {
    const since = performance.now();
    const { written, removed } = await this.compiled.become(text).catch((error) => {
      throw error.name === "OutOfMemory" ? refusal(413, error.message) : error;
    });
    const rows = await this.compiled.rows(text);
    const faults = found(this.rows.faults, edit, rows.faults), tunes = found(this.rows.tunes, edit, rows.tunes);
    this.moment += 1;
    Object.assign(this, { text, rows, version: this.version + 1, has: joined(this.has, has), isUnsaved: !text.isSame(this.saved.text, edit.start) });
    const milliseconds = Math.round(10 * (performance.now() - since)) / 10;
    this.changed();
    this.hint(edit);
    const { version, moment, isUnsaved: unsaved } = this;
    const writing = String(version); // a name of its own for each change
    return { version, moment, window, writing, has, edit, unsaved, written, removed, milliseconds, faults, tunes };
  }

  /** Looks for hints after an edit. If they are others, the window hears so when it has the edit.
   * @type {(edit: Edit) => void} */
  hint(edit) {
    const moved = changed(this.hintRows, edit, { at: 0, out: 0, put: [] });
    this.hintRows = this.foundHints;
    if (JSON.stringify(moved) === JSON.stringify(this.hintRows)) return;
    this.hints += 1;
    void this.inTurn(async () => {
      await new Promise((done) => setTimeout(done));
      this.heard({ state: this.state });
    });
  }

  /** Makes another text that of the book, which the window did not type.
   * @type {(text: BookText) => Promise<void>} */
  async become(text) {
    const old = text.returns === this.text.returns ? this.text.lines : [];
    const edit = difference(/** @type {string[]} */ (old), /** @type {string[]} */ (text.lines));
    if (!edit) return void Object.assign(this, { text });
    const stop = old.length ? edit.stop : this.text.lines.length, lines = edit.put.map((line) => text.shown(line));
    const change = await this.publish({ start: edit.start, stop, lines }, text, null);
    this.heard({ change });
  }

  /** The bytes of a file became known under an address.
   * @type {(name: string, bytes: Uint8Array) => void} */
  givesAddress(name, bytes) {
    for (const address of this.addresses.values()) URL.revokeObjectURL(address);
    this.addresses = new Map([[name, URL.createObjectURL(new Blob([bytes], { type: "audio/midi" }))]]);
  }

  // ---- the file

  /** A content under a name of its own.
   * @type {(text: BookText) => Content} */
  content(text) {
    this.contents += 1;
    return { name: String(this.contents), text };
  }

  /** Reads the file. If it has another content than the one that is known, that is known from then on.
   * @type {() => Promise<Content>} */
  async look() {
    const bytes = (await this.file?.read()) ?? null, text = bytes ? BookText.of(bytes) : EMPTY;
    const isKnown = bytes ? this.present.name !== null && text.isSame(this.present.text) : this.present.name === null;
    if (!isKnown) this.present = bytes ? this.content(text) : { name: null, text };
    if (this.present.name !== this.saved.name && bytes && text.isSame(this.saved.text)) this.present = this.saved;
    this.moment += 1;
    return this.present;
  }

  /** The lines of the file as it is now. */
  async onDisk() {
    const { name, text } = await this.look();
    if (name === null) throw refusal(404, GONE);
    return { lines: text.shownLines };
  }

  /** Takes what another program wrote into the file, if nothing is unsaved; else the page asks. */
  async follow() {
    await this.inTurn(async () => {
      const before = this.present, present = await this.look();
      if (present !== this.saved && present.name !== null && !this.isUnsaved) await this.take(present);
      if (present !== before) this.heard({ state: this.state });
    });
  }

  /** Goes on with another file, whose content is the text then, or with none. The window can take that back.
   * @type {(opened: { name: string, data: Uint8Array, file: BookFile | null }) => Promise<void>} */
  async replace({ name, data, file }) {
    await this.inTurn(async () => {
      Object.assign(this, { name, file });
      this.renamed();
      this.present = name ? this.content(BookText.of(data)) : { name: null, text: BookText.of(data) };
      await this.take(this.present);
      this.moment += 1;
      this.heard({ state: this.state });
    });
  }

  /** Makes a content of the file the text.
   * @type {(content: Content) => Promise<void>} */
  async take(content) {
    this.saved = content;
    await this.become(content.text);
    this.isUnsaved = !this.text.isSame(content.text);
    this.changed();
  }

  /** Writes the text into the file. If the file is not the one that was read or saved last, only over a content that is named. */
  async save(/** @type {Asked} */ { over }) {
    if (!this.file) return this.saveElsewhere();
    const expected = over === undefined ? this.saved.name : over, present = await this.look();
    if (present.name !== expected) {
      const why = present.name === null ? `${this.name} is not there any more` : "another program changed the file";
      throw refusal(409, why, { ask: present.name });
    }
    return this.write(this.file);
  }

  /** Writes the text into a file that the user picks, with which the book goes on. */
  async saveElsewhere() {
    const file = await this.pick(this.name || "book.abc").catch((error) => {
      throw error.name === "AbortError" ? new Error("no file was picked") : error;
    });
    return this.write(file);
  }

  async saveInUtf8(/** @type {Asked} */ asked) {
    await this.become(this.text.inUtf8);
    return this.save(asked);
  }

  /** Makes the file the text. */
  async load(/** @type {Asked} */ { over }) {
    const present = await this.look();
    if (present.name === null || present.name !== over) throw refusal(409, "the file was changed once more", { ask: present.name });
    await this.take(present);
    return this.state;
  }

  /** @type {(file: BookFile) => Promise<object>} */
  async write(file) {
    await file.write(this.text.bytes);
    this.file = file;
    this.name = file.name;
    this.renamed();
    return this.settle();
  }

  /** The text is that of a file now. The page hears of it when the browser keeps it, so a reload after that finds it too. */
  async settle() {
    this.saved = this.present = this.content(this.text);
    this.isUnsaved = false;
    this.moment += 1;
    this.changed();
    await this.keep();
    return this.state;
  }

  /** The text was downloaded: it is in a file of which no more is known. */
  async downloaded() {
    this.heard({ state: await this.settle() });
  }
}

/** What an edit changed of rows that moved with their lines.
 * @template {[line: number, ...more: any[]]} R
 * @param {R[]} old
 * @param {Edit} edit
 * @param {R[]} now */
function found(old, { start, stop, lines }, now) {
  return rowsDifference(without(old, start, stop, lines.length - (stop - start)), now);
}

/** An error as a server answers one.
 * @type {(status: number, words: string, told?: object) => Error} */
function refusal(status, words, told = {}) {
  return Object.assign(new Error(words), { status, told });
}
