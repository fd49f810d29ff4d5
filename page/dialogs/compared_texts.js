// Which texts are compared: this text with the book as it was saved, with the file on the disk, or with text in doubt.

/** @typedef {import("./differences_dialog.js").Named} Named
 * `say` shows a sentence.
 * @typedef {object} Parts
 * @property {import("../link/book_host.js").BookHost} server
 * @property {{ lines: string[] }} text
 * @property {{ name: string }} book
 * @property {{ open: (old: Named, now: Named) => void }} dialog
 * @property {(words: string) => void} say */

export class Comparing {
  /** @param {Parts} parts */
  constructor({ server, text, book, dialog, say }) {
    this.server = server;
    this.text = text;
    this.book = book;
    this.dialog = dialog;
    this.say = say;
  }

  /** Shows what is not saved. */
  withSaved() {
    const { name } = this.book;
    return this.withServers("saved", name ? `${name} as it was saved last` : "the text at the start");
  }

  /** Shows what is different on the disk. */
  withDisk() {
    return this.withServers("disk", `${this.book.name} on the disk`);
  }

  /** Shows what is different in text of another time.
   * @type {(lines: string[], name: string) => void} */
  withText(lines, name) {
    this.dialog.open({ name: "the book", lines: this.text.lines }, { name, lines });
  }

  /** Shows the differences between a text that the server has and this one.
   * @type {(which: "saved" | "disk", name: string) => Promise<void>} */
  async withServers(which, name) {
    try {
      const { lines } = await this.server.ask(which);
      this.dialog.open({ name, lines }, { name: "this text", lines: this.text.lines });
    } catch (error) {
      this.say(`The differences cannot be shown: ${/** @type {Error} */ (error).message}.`);
    }
  }
}
