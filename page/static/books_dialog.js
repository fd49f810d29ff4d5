// The dialog that opens a book: a file, a new book, one that the browser keeps, or one that another tab has.

import { button, find } from "../base/elements.js";
import { counted } from "../base/plural.js";
import { commandOf } from "../base/shortcut_names.js";

/** @typedef {import("./book_store.js").Summary} Summary
 * What the dialog asks of the page. `opened` opens a kept book, `created` begins a new one, `picked` opens a file.
 * @typedef {object} Acts
 * @property {() => Promise<Summary[]>} books
 * @property {(id: string) => void} opened
 * @property {() => void} created
 * @property {() => void} picked
 * @property {(name: string) => void} shown opens an example
 * @property {(id: string) => Promise<void>} forgotten
 * @property {() => void} moved moves the book here that another tab has */

export class BooksDialog {
  /** @param {Acts} acts */
  constructor(acts) {
    this.acts = acts;
    this.dialog = /** @type {HTMLDialogElement} */ (find("books"));
    this.isElsewhere = false; // the book is open in another tab, so the dialog stays
    this.current = ""; // the book that is open here
    find("open").addEventListener("click", () => this.open());
    find("open-file").addEventListener("click", () => acts.picked());
    find("new-book").addEventListener("click", () => acts.created());
    find("move-here").addEventListener("click", () => acts.moved());
    for (const example of /** @type {NodeListOf<HTMLElement>} */ (this.dialog.querySelectorAll(".example"))) {
      example.addEventListener("click", () => acts.shown(example.dataset.file ?? ""));
    }
    find("books-close").addEventListener("click", () => this.dialog.close());
    this.dialog.addEventListener("cancel", (event) => this.isElsewhere && event.preventDefault());
    this.dialog.addEventListener("close", () => this.isElsewhere && this.dialog.showModal());
    addEventListener("keydown", (event) => this.key(event));
  }

  /** @type {(event: KeyboardEvent) => void} */
  key(event) {
    if (commandOf(event) !== "o" || event.shiftKey || event.altKey) return;
    event.preventDefault();
    if (!document.querySelector("dialog[open]")) this.open();
  }

  async open() {
    await this.list();
    find("elsewhere").textContent = "";
    this.dialog.showModal();
  }

  /** Says that another tab has the book. Nothing can be typed into this one then.
   * @type {(name: string) => Promise<void>} */
  async showElsewhere(name) {
    this.isElsewhere = true;
    find("elsewhere").textContent = `${name || "This book"} is open in another tab of this browser.`;
    button("move-here").hidden = false;
    button("books-close").hidden = true;
    for (const other of document.querySelectorAll("dialog")) if (other !== this.dialog && other.open) other.close();
    if (!this.dialog.open) this.dialog.showModal();
    button("move-here").focus();
    await this.list();
  }

  /** Lists the books that the browser keeps. */
  async list() {
    const books = await this.acts.books();
    const rows = books.filter(({ id }) => id !== this.current).map((book) => this.row(book));
    find("kept-books").replaceChildren(...rows);
    this.dialog.classList.toggle("none", !rows.length);
  }

  /** @type {(book: Summary) => HTMLLIElement} */
  row(book) {
    const row = document.createElement("li"), title = document.createElement("b"), facts = document.createElement("small");
    const opens = Object.assign(document.createElement("button"), { type: "button", className: "book" });
    const forgets = Object.assign(document.createElement("button"), { type: "button", textContent: "Forget" });
    title.textContent = nameOf(book);
    facts.textContent = factsOf(book);
    opens.append(title, facts);
    opens.addEventListener("click", () => this.acts.opened(book.id));
    forgets.setAttribute("aria-label", `Forget ${title.textContent}`);
    forgets.addEventListener("click", () => this.forget(book, forgets));
    row.append(opens, forgets);
    return row;
  }

  /** Forgets a book at the second click, if its text is in no file.
   * @type {(book: Summary, forgets: HTMLButtonElement) => Promise<void>} */
  async forget(book, forgets) {
    if (book.unsaved && !forgets.classList.contains("sure")) {
      forgets.classList.add("sure");
      forgets.textContent = "It is in no file: forget";
      forgets.setAttribute("aria-label", `${forgets.textContent} ${nameOf(book)}`);
      return;
    }
    await this.acts.forgotten(book.id);
    await this.list();
    (button("open-file").disabled ? button("books-close") : button("open-file")).focus();
  }
}

/** @type {(book: Summary) => string} */
const nameOf = ({ name, title }) => name || title || "No title";

/** @type {(book: Summary) => string} */
function factsOf({ name, title, tunes, unsaved, when }) {
  const date = new Date(when).toLocaleString([], { dateStyle: "medium", timeStyle: "short" });
  return [name ? title : "", counted(tunes, "tune"), unsaved ? "unsaved" : "", date].filter(Boolean).join(" · ");
}
