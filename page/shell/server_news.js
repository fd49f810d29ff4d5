// What the page says of the server: which files changed, that it is away, or does not take an edit.

const MOST_NAMES = 8; // of files in a sentence
const KEPT = "What you type is kept in this browser, and sent when it is there again";
const NO_ROOM = "This browser has no room to keep the text: do not close it";

/** @typedef {object} Parts
 * @property {import("../link/book_host.js").BookHost} server
 * @property {import("../link/host_link.js").Link} link
 * @property {import("../link/host_book.js").Book} book
 * @property {import("../editor/text_sheet.js").Sheet} sheet
 * @property {import("./question_bar.js").Questions} questions
 * @property {import("./status_bar.js").StatusBar} status
 * @property {import("../link/draft_recovery.js").KeptText} kept */

export class ServerNews {
  /** @param {Parts} parts */
  constructor({ server, link, book, sheet, questions, status, kept }) {
    this.server = server;
    this.link = link;
    this.book = book;
    this.sheet = sheet;
    this.questions = questions;
    this.status = status;
    this.kept = kept;
    this.trouble = ""; // why the file could not be read
    this.lost = () => {}; // the server is away
    this.returned = () => {}; // it is there again
  }

  /** Says which files a change wrote and removed, and who made it.
   * @type {(change: import("../link/host_link.js").Change, isOwn: boolean) => void} */
  reportChange({ written, removed, milliseconds, window }, isOwn) {
    const by = isOwn ? "" : window === null ? ` · ${this.book.name} was changed on the disk` : " · by another window";
    const files = [...filesOf("changed", written), ...filesOf("removed", removed)].join("; ") || "no file changed";
    this.status.say(`${files} · ${milliseconds} ms${by}`);
  }

  /** Says that the server is away, or is there again. */
  reportAway() {
    const { status } = this, { away } = this.link, wasAway = status.isAway;
    status.mark(Boolean(away));
    if (away) {
      status.say(`The ${this.server.called} is away: ${away}. ${this.kept.keep() ? KEPT : NO_ROOM}.`);
      this.lost();
    } else if (wasAway) {
      status.say(`The ${this.server.called} is there again.`);
      this.returned();
    }
  }

  /** Says that the file of the book cannot be read, or can be again. */
  reportTrouble() {
    const trouble = this.link.state?.trouble ?? "", { name } = this.book;
    if (trouble !== this.trouble) {
      this.status.say(trouble ? `${name} on disk cannot be read: ${trouble}.` : `${name} on disk can be read again.`);
    }
    this.trouble = trouble;
  }

  /** Takes back a question that has no point any more. */
  askAboutTheServer() {
    if (!this.link.isStuck) this.questions.withdraw("refused");
  }

  /** Says why the server does not take an edit.
   * @type {(why: string) => void} */
  refused(why) {
    this.kept.keep();
    const words = `The ${this.server.called} does not take this edit: ${why}. Undo it.`;
    this.questions.ask({ name: "refused", about: this.sheet.text.lines, words, answers: { Undo: () => this.sheet.history(true) } });
  }

  /** Says that another window changed the same letters. */
  twice() {
    this.status.say("Another window changed the same letters: both lines are there.");
  }
}

/** What happened to files, by their numbers; nothing without files.
 * @type {(what: string, numbers: number[]) => string[]} */
function filesOf(what, numbers) {
  const names = numbers.slice(0, MOST_NAMES).map((number) => `${number}.mid`).join(", ");
  return numbers.length ? [`${what} ${names}${numbers.length > MOST_NAMES ? " and more" : ""}`] : [];
}
