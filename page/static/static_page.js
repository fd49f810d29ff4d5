// Opens the page without a server: over the compiler in a worker, and what the browser keeps.

import { find } from "../base/elements.js";
import { textIn } from "../dialogs/share_link.js";
import { Drafts } from "../link/draft_store.js";
import { Application } from "../shell/application.js";
import { Keeper } from "./book_keeper.js";
import { BookLock } from "./book_lock.js";
import { BookStore, keepForGood, newName } from "./book_store.js";
import { BooksDialog } from "./books_dialog.js";
import { lackingFeatures } from "./browser_features.js";
import { keepOffline } from "./offline.js";
import { PickedFile, canPick, pickToOpen, pickToSave } from "./picked_file.js";
import { WorkerBook } from "./worker_book.js";

/** @typedef {import("./worker_book.js").Opening} Opening
 * The name of a file, its bytes, and the file if the page can write it.
 * @typedef {{ name: string, data: Uint8Array, file: PickedFile | null }} Opened */

const PATH = new URL("./", location.href).pathname;
const PRESENT = `abc2midi_live book ${PATH}`; // in the store of the tab: the book that it has
const NOT_KEPT = "This browser keeps nothing for this page: save before you close it.";
const ONLY_HERE = "The text is in no file, and this browser does not keep it.";
const NOTHING = { name: "", data: new Uint8Array(), file: null }; // a new book

class StaticPage {
  constructor() {
    this.book = new WorkerBook(canPick ? "picked" : "downloads", pickToSave);
    this.page = new Application(this.book);
    /** @type {BookStore | null} */
    this.store = null;
    /** @type {Keeper | null} */
    this.keeper = null;
    /** @type {BookLock | null} */
    this.lock = null;
    this.isLeaving = false; // the page is loaded anew
    this.books = new BooksDialog({
      books: async () => (await this.store?.books().catch(() => null)) ?? [],
      opened: (id) => this.go(id),
      created: () => this.create(),
      picked: () => this.pick(),
      shown: (name) => this.openExample(name),
      forgotten: async (id) => this.forget(id),
      moved: () => this.moveHere(),
    });
    find("upload").addEventListener("change", () => this.upload());
    find("download").addEventListener("click", () => this.page.saveAs.openDownloads());
    find("download").hidden = !canPick; // else 'Save as…' downloads
    addEventListener("hashchange", () => this.leave(location.hash));
  }

  /** Opens the book of this tab, the one in a link, or the one that was changed last. */
  async open() {
    this.page.open();
    this.store = await BookStore.open(PATH).catch(() => null);
    const opening = await this.opening().catch(() => {
      this.store = null; // it opens, but cannot be read
      return this.opening();
    });
    if (!this.store) this.warn(NOT_KEPT);
    const lock = (this.lock = new BookLock(PATH, opening.id));
    this.books.current = opening.id;
    if (!(await lock.take())) return this.books.showElsewhere(opening.name || opening.title);
    this.connect(lock);
    this.book.begin(opening);
    if (opening.isKept) void this.book.inTurn(async () => this.keeper?.soon()); // when its tunes are known
    await this.look();
    await keepOffline({ say: (words) => this.say(words), ask: (load) => this.askToLoad(load), load: () => void this.leave(location.hash) });
  }

  /** The book to begin with.
   * @returns {Promise<Opening & { file: PickedFile | null, title: string, isKept: boolean }>} */
  async opening() {
    const shared = await textIn(location.hash).catch((error) => {
      const words = `The tune in this link cannot be read: ${error.message}.`;
      this.page.questions.ask({ name: "link", words, answers: { Close: () => {} } });
      return null;
    });
    const data = new TextEncoder().encode(shared ?? "");
    const fresh = { id: newName(), name: "", data, disk: shared ? data : null, file: null, title: "", isKept: false };
    if (shared || !this.store) return fresh;
    const present = presentBook(), id = present ?? (await this.store.books())[0]?.id;
    const kept = id ? await this.store.book(id) : null;
    if (!kept) return present ? { ...fresh, id: present } : fresh;
    setPresentBook(kept.id);
    return { ...kept, file: kept.handle && new PickedFile(kept.handle), isKept: true };
  }

  /** Connects the book of this tab with the window and the store.
   * @type {(lock: BookLock) => void} */
  connect(lock) {
    const { book, page, store } = this, keeper = store && new Keeper(book, store);
    this.keeper = keeper;
    let isFirst = true;
    book.changed = () => {
      keeper?.soon();
      if (isFirst) void keepForGood();
      isFirst = false;
      if (!keeper && book.isUnsaved) this.warn(NOT_KEPT);
      setPresentBook(book.id);
      if (location.hash) history.replaceState(null, "", location.pathname + location.search); // its text is a book of this browser now
    };
    book.keep = async () => keeper?.finish();
    book.isKept = () => this.isLeaving || (keeper?.isKept ?? false);
    book.renamed = () => {
      page.book.name = book.name;
      page.titleBar.show();
    };
    page.files.downloaded = () => book.offers.saving === "downloads" && void book.downloaded();
    lock.wanted = () => this.finish();
    lock.lost = () => void this.lose();
    if (keeper) keeper.lost = () => void this.lose();
    if (keeper) keeper.failed = (why) => this.warn(`This browser does not keep the text (${why}): save it.`);
    for (const name of ["beforeunload", "pagehide"]) addEventListener(name, () => void keeper?.finish());
    document.addEventListener("visibilitychange", () => (document.hidden ? void keeper?.finish() : void this.look()));
    addEventListener("focus", () => void this.look());
  }

  /** @type {(words: string) => void} */
  say(words) {
    this.page.status.say(words);
  }

  /** Warns that the text is only in this page: the next sentence of the status line does not replace that.
   * @type {(words: string) => void} */
  warn(words) {
    const { questions, files } = this.page;
    questions.ask({ name: "not kept", words, answers: { [this.saveName]: () => void files.save(), "Decide later": null } });
  }

  /** What the button is called that puts the text into a file. */
  get saveName() {
    return this.page.files.writes ? "Save" : "Download";
  }

  /** Acts, after a question if the text would be lost by that.
   * @type {(act: () => void) => Promise<void>} */
  async drop(act) {
    await this.finish();
    const { link, questions, files } = this.page;
    if (link.isSafe) return act();
    find("books-close").click();
    const answers = { [this.saveName]: () => void files.save(), "Drop the text": act, Cancel: () => {} };
    questions.ask({ name: "drop", about: act, words: ONLY_HERE, answers, focus: true });
  }

  /** Looks whether another program changed the file, if the page may read it. */
  async look() {
    const { file } = this.book;
    if (file instanceof PickedFile && (await file.isReadable())) await this.book.follow().catch(() => {});
  }

  /** Waits till the book has all that was typed, and the store has the book. */
  async finish() {
    await this.page.link.flush().catch(() => {});
    await this.keeper?.finish();
  }

  /** Another tab has the book: this one shows it no more. */
  async lose() {
    const { keeper, page, book, books } = this;
    page.kept.drafts = null;
    page.music.player.stop();
    await keeper?.giveUp();
    await books.showElsewhere(book.name || (book.rows.tunes[0]?.[2] ?? ""));
  }

  async moveHere() {
    await this.lock?.move();
    location.reload();
  }

  /** Goes to a kept book, or to a new one.
   * @type {(id: string) => Promise<void>} */
  async go(id) {
    await this.drop(() => {
      setPresentBook(id);
      this.reload("");
    });
  }

  /** Begins a new book. Without a store the present text can be taken back. */
  async create() {
    if (this.store) return this.go(newName());
    await this.drop(() => void this.replace(NOTHING));
  }

  /** Loads the page anew, with a fragment. All that was typed is in the store then, or may be dropped.
   * @type {(fragment?: string) => Promise<void>} */
  async leave(fragment = "") {
    await this.drop(() => this.reload(fragment));
  }

  /** @type {(fragment: string) => void} */
  reload(fragment) {
    this.isLeaving = true;
    history.replaceState(null, "", location.pathname + location.search + fragment);
    location.reload();
  }

  /** Forgets a kept book, and the text of it that closed windows left.
   * @type {(id: string) => Promise<void>} */
  async forget(id) {
    await this.store?.forget(id);
    new Drafts(id, "").forgetBook();
  }

  /** Lets the user pick a file to open. */
  async pick() {
    if (!canPick) return find("upload").click();
    try {
      const file = await pickToOpen(), data = await file.read();
      if (data) await this.take({ name: file.name, data, file });
    } catch (caught) {
      const { name, message } = /** @type {Error} */ (caught);
      if (name !== "AbortError") this.say(`Not opened: ${message}.`);
    }
  }

  /** Opens the file that was uploaded. */
  async upload() {
    const field = /** @type {HTMLInputElement} */ (find("upload")), [file] = field.files ?? [];
    field.value = "";
    if (file) await this.take({ name: file.name, data: new Uint8Array(await file.arrayBuffer()), file: null });
  }

  /** @type {(name: string) => Promise<void>} */
  async openExample(name) {
    const answer = await fetch(`examples/${name}`).catch(() => null);
    if (answer?.ok) await this.take({ name, data: new Uint8Array(await answer.arrayBuffer()), file: null });
    else this.say(`Not opened: ${name} did not come.`);
  }

  /** Opens a file as a book of its own. The present one stays in the store; without a store it can be undone.
   * @type {(opened: Opened) => Promise<void>} */
  async take(opened) {
    const { name, data, file } = opened, id = newName(), content = { data, disk: data, handle: file?.handle ?? null };
    const kept = this.store?.keep({ id, name, title: "", tunes: 0, unsaved: false }, content).then(() => true, () => false);
    if (await kept) return this.go(id);
    await this.drop(() => void this.replace(opened));
  }

  /** Makes another book that of this page.
   * @type {(opened: Opened) => Promise<void>} */
  async replace(opened) {
    find("books-close").click();
    this.page.questions.withdraw("not kept");
    await this.book.replace(opened);
  }

  /** Asks whether to load a newer page.
   * @type {(load: () => void) => void} */
  askToLoad(load) {
    const words = "There is a newer version of this page.";
    this.page.questions.ask({ name: "newer", words, answers: { "Load it": load, "Decide later": null } });
  }
}

/** The name of the book that this tab has, if it is known. */
function presentBook() {
  try {
    return sessionStorage.getItem(PRESENT);
  } catch {
    return null; // a browser that stores nothing
  }
}

/** @type {(id: string) => void} */
function setPresentBook(id) {
  try {
    sessionStorage.setItem(PRESENT, id);
  } catch {
    // a browser that stores nothing
  }
}

const lacking = lackingFeatures();
if (!lacking.length) {
  new StaticPage().open();
} else {
  const dialog = /** @type {HTMLDialogElement} */ (find("unable"));
  find("unable-words").textContent = `This browser cannot run the page: it lacks ${lacking.join(", ")}. Use Chromium 105, Firefox 121, Safari 16.4 or a later one of them.`;
  dialog.addEventListener("close", () => dialog.showModal());
  dialog.showModal();
}
