// Keeps this window's text in the browser while the server may not have it, and asks what to do with text that was kept.

import { bothChanged, keptByBrowser } from "./conflict_questions.js";
import { Drafts } from "./draft_store.js";

const SOON = 300; // milliseconds after a key

export class KeptText {
  /** @param {import("../text/text.js").Text} text
   * @param {import("./host_link.js").Link} link
   * @param {import("./host_book.js").Book} book
   * @param {import("../shell/question_bar.js").Questions} questions
   * @param {(lines: string[], name: string) => void} compare shows what is different in other lines */
  constructor(text, link, book, questions, compare) {
    this.text = text;
    this.link = link;
    this.book = book;
    this.questions = questions;
    this.compare = compare;
    /** @type {Drafts | null} */
    this.drafts = null; // from the first book on
    /** @type {ReturnType<typeof setTimeout> | null} */
    this.timer = null;
    /** @type {Set<string>} */
    this.passed = new Set(); // the keys of text that was offered
    this.doubts = 0; // how often this window's text and the book both changed
  }

  /** Whether the page has had a book. */
  get isOpen() {
    return this.drafts !== null;
  }

  /** The page has the book of an identity.
   * @type {(id: string) => void} */
  open(id) {
    this.drafts ??= new Drafts(id, this.link.window);
  }

  /** Keeps the text if the server may not have it, or has not saved it: whether there was room.
   * @type {() => boolean} */
  keep() {
    const { link } = this, run = link.isSettled && !link.away ? link.state?.run : "";
    return !this.drafts || !link.isUnsaved || this.drafts.keep(this.text.lines, run);
  }

  /** Something was typed: it is kept soon if the server is away. */
  soon() {
    if (!this.link.away) return;
    this.timer ??= setTimeout(() => {
      this.timer = null;
      this.keep();
    }, SOON);
  }

  /** Forgets the text if the server has it. */
  settle() {
    const { link } = this;
    if (link.state && !link.away && link.isSettled) this.drafts?.forget();
  }

  /** Makes the text these lines, which are kept till the server has them.
   * @type {(lines: string[]) => void} */
  take(lines) {
    this.link.take(lines);
    this.keep();
  }

  /** Offers text that an earlier window left, and then the next one. */
  offer() {
    const draft = this.drafts?.left(this.text.lines, this.passed, this.link.known);
    if (!draft) return;
    const done = () => {
      this.drafts?.forget(draft.key);
      this.offer();
    };
    const lines = draft.text.split("\n");
    this.questions.ask({
      name: draft.key,
      words: keptByBrowser(new Date(draft.when).toLocaleString(), lines, this.text.lines),
      answers: {
        "Take it": () => {
          this.take(lines);
          done();
        },
        "Forget it": done,
        "Decide later": null,
      },
      compare: () => this.compare(lines, "the text that the browser kept"),
    });
    this.passed.add(draft.key);
  }

  /** Asks which one to take: this window's text or the book, which both changed.
   * @type {(mine: string[]) => void} */
  doubt(mine) {
    const key = this.drafts?.putAside(mine);
    const kept = key ? "" : " This browser has no room to keep it: answer before you close the page.";
    const forget = () => key && this.drafts?.forget(key);
    this.doubts += 1;
    this.questions.ask({
      name: `doubt ${this.doubts}`,
      words: bothChanged(this.book.name, new Date().toLocaleTimeString(), mine, this.text.lines) + kept,
      answers: {
        "Keep this window's text": () => {
          this.take(mine);
          forget();
        },
        "Take the book as it is": forget,
        "Decide later": null,
      },
      compare: () => this.compare(mine, "your text"),
    });
  }

  /** The first question about this window's text that is not answered. Nothing is saved before. */
  standingDoubt() {
    return Array.from({ length: this.doubts }, (_, n) => `doubt ${n + 1}`).find((name) => this.questions.find(name));
  }
}
