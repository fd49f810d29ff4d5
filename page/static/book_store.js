// The books that the browser keeps for this page, in its IndexedDB.

/** What is known of a kept book without its text. `stamp` is another one after each change.
 * @typedef {object} Summary
 * @property {string} id
 * @property {string} name of its file, "" without one
 * @property {string} title of its first tune
 * @property {number} tunes how many it has
 * @property {boolean} unsaved
 * @property {number} when
 * @property {string} stamp */
/** The content of a kept book: the bytes of its text and of its file, and the file that the user picked.
 * @typedef {{ id: string, data: Uint8Array, disk: Uint8Array | null, handle: import("./picked_file.js").Handle | null }} Content */

const BOOKS = "books", CONTENTS = "contents";

/** Another tab of the browser changed the book. */
export class ChangedElsewhere extends Error {}

/** A name that no other book has. */
export function newName() {
  return crypto.randomUUID?.() ?? String(Math.random());
}

/** What a request gives.
 * @template T
 * @param {IDBRequest<T>} request
 * @returns {Promise<T>} */
function result(request) {
  return new Promise((resolve, reject) => {
    request.onsuccess = () => resolve(request.result);
    request.onerror = () => reject(request.error);
  });
}

/** Asks the browser not to drop what it keeps for this page if it lacks room. */
export async function keepForGood() {
  await globalThis.navigator?.storage?.persist?.().catch(() => false);
}

/** What a change of the store has: a computer that loses its power has it then, too.
 * @type {{ durability: "strict" }} */
const STRICT = { durability: "strict" };

export class BookStore {
  /** @param {IDBDatabase} database */
  constructor(database) {
    this.database = database;
    /** @type {Map<string, string>} */
    this.stamps = new Map(); // of the books that this tab read or wrote
  }

  /** The store of the pages at a path.
   * @type {(path: string) => Promise<BookStore>} */
  static async open(path) {
    const request = indexedDB.open(`abc2midi_live ${path}`, 1);
    request.onupgradeneeded = () => {
      for (const name of [BOOKS, CONTENTS]) request.result.createObjectStore(name, { keyPath: "id" });
    };
    return new BookStore(await result(request));
  }

  /** The kept books, the one that was changed last first.
   * @returns {Promise<Summary[]>} */
  async books() {
    /** @type {Summary[]} */
    const all = await result(this.database.transaction(BOOKS).objectStore(BOOKS).getAll());
    return all.sort((one, other) => other.when - one.when);
  }

  /** A book, or null.
   * @type {(id: string) => Promise<(Summary & Content) | null>} */
  async book(id) {
    const transaction = this.database.transaction([BOOKS, CONTENTS]);
    const [summary, content] = await Promise.all([BOOKS, CONTENTS].map((name) => result(transaction.objectStore(name).get(id))));
    if (summary) this.stamps.set(id, summary.stamp);
    return summary && content ? { ...summary, ...content } : null;
  }

  /** A change of the store.
   * @returns {IDBTransaction} */
  changing() {
    return /** @type {any} */ (this.database).transaction([BOOKS, CONTENTS], "readwrite", STRICT); // the types of an older compiler lack it
  }

  /** Keeps a book. Throws `ChangedElsewhere` if another tab changed it since this one read or wrote it.
   * @type {(summary: Omit<Summary, "stamp" | "when">, content: Omit<Content, "id">) => Promise<void>} */
  async keep(summary, content) {
    const { id } = summary, stamp = String(Math.random());
    const transaction = this.changing();
    const done = new Promise((resolve, reject) => {
      transaction.oncomplete = resolve;
      transaction.onabort = () => reject(transaction.error ?? new ChangedElsewhere("another tab changed the book"));
    });
    const books = transaction.objectStore(BOOKS), request = books.get(id);
    request.onsuccess = () => {
      if (request.result && request.result.stamp !== this.stamps.get(id)) return transaction.abort();
      books.put({ ...summary, when: Date.now(), stamp });
      transaction.objectStore(CONTENTS).put({ id, ...content });
    };
    await done;
    this.stamps.set(id, stamp);
  }

  /** @type {(id: string) => Promise<void>} */
  async forget(id) {
    const transaction = this.changing();
    await Promise.all([BOOKS, CONTENTS].map((name) => result(transaction.objectStore(name).delete(id))));
  }
}
