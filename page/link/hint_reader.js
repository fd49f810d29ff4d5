// Reads the hints of the text when the server has others. They come some time after a change.

const SOON = 50; // milliseconds

export class HintReader {
  /** @param {import("./book_host.js").BookHost} server
   * @param {import("./host_link.js").Link} link
   * @param {import("./host_book.js").Book} book */
  constructor(server, link, book) {
    this.server = server;
    this.link = link;
    this.book = book;
    /** @type {ReturnType<typeof setTimeout> | null} */
    this.timer = null;
    this.came = () => {}; // the book has other hints
  }

  /** Reads the hints soon if the server has others. */
  look() {
    const { state, away } = this.link;
    if (state && !away && state.hints !== this.book.hintsTold) this.soon();
  }

  soon() {
    this.timer ??= setTimeout(() => {
      this.timer = null;
      this.read();
    }, SOON);
  }

  /** Reads the hints, if they are those of the text that this window knows; else it is tried again. */
  async read() {
    const { version, hints, rows } = await this.server.ask("hints").catch(() => ({}));
    if (version === undefined) return;
    if (version !== this.link.known.version) return this.soon();
    this.book.learn(rows, hints);
    this.came();
  }
}
