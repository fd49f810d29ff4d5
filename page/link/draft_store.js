// Text that the server may not have, in the browser's store, by the book and the window.

/** `run` is that of the server which has the text, "" if none may have it.
 * @typedef {{ key: string, when: number, text: string, run: string }} Draft */

export class Drafts {
  /** @param {string} book
   * @param {string} window */
  constructor(book, window) {
    this.prefix = `abc2midi_live ${book} `;
    this.key = this.prefix + window;
    this.doubts = 0;
  }

  /** Stores the text of this window, with the run of the server that has it; whether there was room for it.
   * @type {(lines: string[], run?: string, key?: string) => boolean} */
  keep(lines, run = "", key = this.key) {
    try {
      localStorage.setItem(key, JSON.stringify({ when: Date.now(), text: lines.join("\n"), run }));
      return true;
    } catch {
      return false;
    }
  }

  /** Stores text in doubt under a key of its own, which nothing else of this window overwrites; the key, or null if there was
   * no room.
   * @type {(lines: string[]) => string | null} */
  putAside(lines) {
    this.doubts += 1;
    const key = `${this.key} ${this.doubts}`;
    return this.keep(lines, "", key) ? key : null;
  }

  forget(key = this.key) {
    try {
      localStorage.removeItem(key);
    } catch {
      // a browser that stores nothing
    }
  }

  /** Forgets all text of the book. */
  forgetBook() {
    try {
      for (const key of Object.keys(localStorage)) if (key.startsWith(this.prefix)) localStorage.removeItem(key);
    } catch {
      // a browser that stores nothing
    }
  }

  /** What other windows left, or this one before it was loaded anew: the newest that is not this text, and that the present run of
   * the server has not had.
   * @type {(lines: string[], passed: Set<string>, state: { run: string, unsaved: boolean }) => Draft | null} */
  left(lines, passed, { run, unsaved }) {
    const text = lines.join("\n");
    /** @type {Draft | null} */
    let newest = null;
    try {
      for (const key of Object.keys(localStorage)) {
        if (!key.startsWith(this.prefix) || key.startsWith(this.key) || passed.has(key)) continue;
        const draft = { key, ...JSON.parse(localStorage.getItem(key) ?? "null") }, isKnown = draft.run === run;
        if (draft.text === text || (isKnown && !unsaved)) this.forget(key);
        else if (!isKnown && (!newest || draft.when > newest.when)) newest = draft;
      }
    } catch {
      return newest;
    }
    return newest;
  }
}
