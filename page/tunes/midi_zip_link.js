// The link to the MIDI files of the whole book, in a .zip.

import { find, show } from "../base/elements.js";

export class AllMidi {
  /** @param {import("../link/book_host.js").BookHost} server
   * @param {import("../link/host_link.js").Link} link
   * @param {{ name: string }} book
   * @param {import("../link/findings.js").Findings} findings */
  constructor(server, link, book, findings) {
    this.server = server;
    this.link = link;
    this.book = book;
    this.findings = findings;
    find("all-midi").addEventListener("click", ({ currentTarget }) => {
      const anchor = /** @type {HTMLAnchorElement} */ (currentTarget);
      if (anchor.href) anchor.closest("dialog")?.close();
    });
  }

  /** Links to the files, while there are some and the server is there. */
  show() {
    const { server, link, book, findings } = this, anchor = find("all-midi"), name = book.name.replace(/\.[^.]*$/, "") || "book";
    show(anchor, server.offers.zip);
    if (server.offers.zip && !link.away && findings.tunes.some(([, , , hasFile]) => hasFile)) Object.assign(anchor, { href: server.address("midi.zip"), download: `${name} MIDI.zip` });
    else anchor.removeAttribute("href");
  }
}
