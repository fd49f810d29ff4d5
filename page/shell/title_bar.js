// The bar at the top: the name of the book, whether it is saved, and who else has it.

import { find, hide, show, write } from "../base/elements.js";

export class TitleBar {
  /** `back` takes the focus of a button that goes.
   * @param {import("../link/host_link.js").Link} link
   * @param {import("../link/host_book.js").Book} book
   * @param {import("../dialogs/book_saving.js").Files} files
   * @param {HTMLElement} back */
  constructor(link, book, files, back) {
    this.link = link;
    this.book = book;
    this.files = files;
    this.back = back;
  }

  show() {
    const { state } = this.link, { name } = this.book, { writes } = this.files, windows = state?.windows ?? 0;
    this.showUnsaved();
    write(find("name"), name || "Tune book");
    write(find("save"), writes || !state ? "Save" : "Download");
    show(find("windows"), windows >= 2);
    hide(find("utf-8"), !writes || !name || !state || state.letters === "utf-8", this.back);
    write(find("windows"), `${windows} windows have this book`);
  }

  /** Shows whether the text has what the file does not have. */
  showUnsaved() {
    const { isUnsaved } = this.link;
    hide(find("unsaved"), !isUnsaved, this.back);
    const title = `${isUnsaved ? "● " : ""}${this.book.name || "Tune book"} – abc2midi_live`;
    if (document.title !== title) document.title = title;
  }
}
