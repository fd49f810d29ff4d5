// The book on disk: saving it, under another name too, loading it, and what to ask if another program changed it.

import { download } from "../base/download.js";
import { changedOnDisk, goneFromDisk } from "../link/conflict_questions.js";
import { blobOf } from "../text/book_blob.js";

/** @typedef {import("../link/host_link.js").Failure} Failure
 * The content of a file that may be replaced, by its digest; null if there must be none.
 * @typedef {{ over?: string | null }} Over
 * `book` has the name of the book; `say` shows a sentence; `doubt` returns the name of a question to be answered before a save, if
 * there is one; `compare` shows what is different on the disk.
 * @typedef {object} Parts
 * @property {import("../text/text.js").Text} text
 * @property {import("../link/host_link.js").Link} link
 * @property {{ name: string }} book
 * @property {import("../shell/question_bar.js").Questions} questions
 * @property {(words: string) => void} say
 * @property {() => string | undefined} doubt
 * @property {() => void} compare
 * @property {string} undoKey */

export class Files {
  /** @param {Parts} parts */
  constructor({ text, link, book, questions, say, doubt, compare, undoKey }) {
    this.text = text;
    this.link = link;
    this.book = book;
    this.questions = questions;
    this.say = say;
    this.doubt = doubt;
    this.compare = compare;
    this.undoKey = undoKey;
    this.downloaded = () => {}; // the text was offered as a file of the browser
  }

  /** How the host of the book lets it become a file. */
  get saving() {
    return this.link.server.offers.saving;
  }

  /** Whether a save writes a file. Else it downloads the text. */
  get writes() {
    return this.saving === "picked" || (this.saving === "folder" && Boolean(this.book.name));
  }

  /** Whether a question is to be answered before anything is saved: it gets the focus. */
  isAsked() {
    const doubt = this.doubt();
    if (doubt) this.questions.focus(doubt);
    if (doubt) this.say("Not saved: answer the question first.");
    return Boolean(doubt);
  }

  /** Saves the book, or offers it as a download if no book was named.
   * @param {Over} [over] */
  async save(over) {
    const { book, link, questions } = this;
    if (this.isAsked()) return;
    if (!this.writes) return this.download();
    if (!over && questions.find("disk")) {
      questions.focus("disk");
      return this.say(link.known.disk === null ? `Not saved: ${book.name} is not on the disk any more.` : `Not saved: another program changed ${book.name}.`);
    }
    try {
      await link.file("save", over);
      questions.withdraw("failed");
      this.say(`Saved ${book.name}.`);
    } catch (error) {
      this.failed("saved", /** @type {Failure} */ (error));
    }
  }

  /** Saves the book in a file that the user picks, with which the page goes on. */
  async saveElsewhere() {
    if (this.isAsked()) return;
    try {
      await this.link.file("save-as");
      this.say(`Saved ${this.book.name}.`);
    } catch (error) {
      this.failed("saved", /** @type {Failure} */ (error));
    }
  }

  /** Saves the book in UTF-8. */
  async saveInUtf8() {
    if (this.isAsked()) return;
    try {
      await this.link.file("save-in-utf-8");
      this.say(`Saved ${this.book.name} in UTF-8.`);
    } catch (error) {
      this.failed("saved", /** @type {Failure} */ (error));
    }
  }

  /** Makes the book on disk the text.
   * @type {(over: Over) => Promise<void>} */
  async load(over) {
    try {
      const changes = await this.link.file("load", over), step = this.text.history.last?.writing;
      const back = changes.some(({ writing }) => writing === step) ? ` ${this.undoKey} takes that back.` : "";
      this.say(`Loaded ${this.book.name} from the disk.${back}`);
    } catch (error) {
      this.failed("loaded", /** @type {Failure} */ (error));
    }
  }

  /** Says why the book is not saved or loaded. If there is nothing to ask, the text can be had as a file of the browser.
   * @type {(what: string, error: Failure) => void} */
  failed(what, error) {
    const { book, questions } = this;
    this.say(`Not ${what}: ${error.message}.`);
    if (questions.find("disk")) questions.focus("disk");
    else if (error.status && what === "saved") {
      const words = `${book.name || "The text"} is not saved: ${error.message}.`;
      questions.ask({ name: "failed", about: words, words, answers: { "Download the text": () => this.download(), Close: () => {} }, focus: true });
    }
  }

  /** Asks what to do if another program changed the file while the text has changes too. */
  askAboutTheFile() {
    const { book, link, questions } = this;
    const { saved, disk } = link.known;
    const gone = disk === null;
    if (disk === saved || link.away || !(gone || link.isUnsaved)) return questions.withdraw("disk");
    questions.ask({
      name: "disk",
      about: disk,
      words: gone ? goneFromDisk(book.name) : changedOnDisk(book.name),
      answers: {
        [gone ? "Save this text" : "Save this text over it"]: () => this.save({ over: disk }),
        ...(!gone && { "Load the book from disk": () => this.load({ over: disk }) }),
        "Decide later": null,
      },
      ...(!gone && { compare: this.compare }),
    });
  }

  /** Offers the text as a file of the browser, with the bytes that a save would write.
   * @param {string} name */
  async download(name = this.book.name || "book.abc") {
    const bytes = await this.link.bytes().catch(() => null);
    download(bytes ? new Blob([bytes], { type: "text/vnd.abc" }) : blobOf(this.text.lines, this.link.state ?? {}), name);
    this.downloaded();
  }
}

/** The question for another name. */
export class SaveAs {
  /** @param {Files} files
   * @param {HTMLDialogElement} dialog
   * @param {import("../editor/text_sheet.js").Sheet} sheet */
  constructor(files, dialog, sheet) {
    const part = (/** @type {string} */ name) => /** @type {HTMLElement} */ (dialog.querySelector(`#copy-${name}`));
    this.files = files;
    this.dialog = dialog;
    this.sheet = sheet;
    this.words = part("words");
    this.name = /** @type {HTMLInputElement} */ (part("name"));
    this.wrong = part("wrong");
    this.saves = part("save");
    this.over = part("over");
    this.downloads = part("download");
    this.closes = part("close");
    /** @type {HTMLElement} */
    this.before = sheet.area; // what had the focus
    this.selection = sheet.selection();
    this.opened = () => {}; // the dialog is there
    dialog.querySelector("form")?.addEventListener("submit", (event) => {
      event.preventDefault();
      if (!this.saves.hidden) this.save({});
      else this.download();
    });
    this.name.addEventListener("input", () => this.complain(""));
    this.downloads.addEventListener("click", () => this.download());
    this.closes.addEventListener("click", () => dialog.close());
    dialog.addEventListener("close", () => this.leave());
  }

  /** Gives the focus back. Browsers do that too, but some lose the caret of a text area. */
  leave() {
    this.sheet.refresh(this.selection);
    this.before.focus({ preventScroll: true });
  }

  open() {
    const { saving, writes } = this.files;
    if (saving === "picked") void this.files.saveElsewhere();
    else this.ask(writes);
  }

  /** Offers downloads alone. */
  openDownloads() {
    this.ask(false);
  }

  /** Asks for a name, and whether to save under it if `writes`.
   * @type {(writes: boolean) => void} */
  ask(writes) {
    const { files, dialog, words, name, saves } = this, { book, saving } = files;
    if (dialog.open || files.isAsked()) return;
    words.textContent = writes
      ? `Saves a copy in the folder of ${book.name}, or downloads it. This page goes on with ${book.name}.`
      : `${saving === "folder" ? "No book was named, so there is no folder to save into. " : ""}Downloads the text.`;
    saves.hidden = !writes;
    dialog.ariaLabel = writes ? "Save as" : "Download";
    name.value = book.name ? book.name.replace(/(\.[^.]*)?$/, " copy$1") : "book.abc";
    this.complain("");
    if (document.activeElement instanceof HTMLElement) this.before = document.activeElement;
    this.selection = this.sheet.selection();
    this.before.blur();
    dialog.showModal();
    this.opened();
    name.focus();
    name.setSelectionRange(0, name.value.lastIndexOf("."));
  }

  /** The name that was typed, which ends as books do. */
  get named() {
    const name = this.name.value.trim();
    return !name || name.includes(".") ? name : `${name}.abc`;
  }

  /** Says what is wrong; if `there` is the content of a file with this name, it may be replaced.
   * @param {string} words
   * @param {string} [there] */
  complain(words, there) {
    this.wrong.textContent = words;
    this.over.hidden = there === undefined;
    this.over.onclick = () => this.save({ over: there });
  }

  /** @param {Over} over */
  async save(over) {
    const { files, dialog, named } = this;
    try {
      await files.link.file("save-as", { name: named, ...over });
      dialog.close();
      files.say(`Saved a copy as ${named}. This page goes on with ${files.book.name}.`);
    } catch (caught) {
      const error = /** @type {Failure} */ (caught), { there } = error.told ?? {};
      if (there) this.complain(`There is a file ${named} in this folder.`, there);
      else this.complain(`Not saved: ${error.message}.`);
    }
  }

  download() {
    this.files.download(this.named || undefined);
    this.dialog.close();
  }
}
