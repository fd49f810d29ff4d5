// Keeps the book of this tab in the browser's store, a moment after each change.

import { ChangedElsewhere, newName } from "./book_store.js";

const SOON = 300; // milliseconds after a change

export class Keeper {
  /** @param {import("./worker_book.js").WorkerBook} book
   * @param {import("./book_store.js").BookStore} store */
  constructor(book, store) {
    this.book = book;
    this.store = store;
    /** @type {ReturnType<typeof setTimeout> | null} */
    this.timer = null;
    this.writing = 0; // changes on their way to the store
    /** @type {Promise<void>} */
    this.kept = Promise.resolve(); // when the last change is kept
    this.isOver = false; // another tab has the book
    this.isFailing = false; // the store did not take the last change
    this.lost = () => {}; // another tab changed the book, and the text of this one is a book of its own now
    /** @type {(why: string) => void} */
    this.failed = () => {};
  }

  /** Whether the store has the last change. */
  get isKept() {
    return !this.isFailing && this.writing === 0 && this.timer === null;
  }

  /** The book changed. */
  soon() {
    if (!this.isOver) this.timer ??= setTimeout(() => this.keep(), SOON);
  }

  /** Keeps the last change, if it is not kept yet; waits till it is. */
  async finish() {
    if (this.timer) this.keep();
    await this.kept;
  }

  keep() {
    if (this.timer) clearTimeout(this.timer);
    this.timer = null;
    this.writing += 1;
    this.kept = this.kept.then(() => this.write()).finally(() => (this.writing -= 1));
  }

  async write() {
    if (this.isOver) return;
    try {
      await this.put(this.book.id);
      this.isFailing = false;
    } catch (error) {
      if (!(error instanceof ChangedElsewhere)) return this.fail(/** @type {Error} */ (error));
      this.isOver = true;
      await this.copy();
      this.lost();
    }
  }

  /** The book is another tab's from now on. A change that is not kept yet becomes a book of its own. */
  async giveUp() {
    const isPending = this.timer !== null && !this.isOver;
    if (this.timer) clearTimeout(this.timer);
    this.timer = null;
    this.isOver = true;
    if (isPending) await this.copy();
  }

  /** Keeps the text as a book of its own. */
  async copy() {
    await this.put(newName()).catch((error) => this.fail(error));
  }

  /** The store did not take the text.
   * @type {(error: Error) => void} */
  fail({ message }) {
    this.isFailing = true;
    this.failed(message);
  }

  /** Puts the book into the store.
   * @type {(id: string) => Promise<void>} */
  async put(id) {
    const { name, text, saved, isUnsaved, rows, file } = this.book, data = text.bytes;
    const summary = { id, name, title: rows.tunes[0]?.[2] ?? "", tunes: rows.tunes.length, unsaved: isUnsaved };
    const disk = saved.name === null ? null : isUnsaved ? saved.text.bytes : data;
    await this.store.keep(summary, { data, disk, handle: file && "handle" in file ? /** @type {any} */ (file).handle : null });
  }
}
