// The way to the server: sends what was typed, brings what others changed, and waits while the server is away.

import { difference, replaced } from "../text/line_edits.js";
import { Ancestry, hasEdit, joined, lackedBy } from "./version_ancestry.js";

/** What the server says of the book. `saved` is what its text was last, `disk` what the file is now.
 * @typedef {object} State
 * @property {string} run of the server
 * @property {number} version
 * @property {number} moment of two states the later one has the larger number
 * @property {boolean} mark
 * @property {boolean} returns
 * @property {string} letters
 * @property {boolean} unsaved
 * @property {string | null} saved
 * @property {string | null} disk
 * @property {string} trouble
 * @property {number} windows
 * @property {number} hints how often there were others */
/** A whole book as the server sends it. `has` says which edits its text has in it.
 * @typedef {object} Whole
 * @property {string} name
 * @property {string} id
 * @property {string[]} lines
 * @property {import("./version_ancestry.js").Edits} has
 * @property {import("./finding_rows.js").FaultRow[]} faults
 * @property {import("./finding_rows.js").TuneRow[]} tunes
 * @property {import("./finding_rows.js").FaultRow[]} hintRows
 * @property {Record<string, string[]>} sentences
 * @typedef {State & Whole} Book */
/** A change of the book: the edit of a window, null for what came from disk, and what follows from it. `has` is what the text has in
 * it since then.
 * @typedef {object} Change
 * @property {number} version
 * @property {number} moment
 * @property {string | null} window
 * @property {string} writing has one name for all changes that were made together
 * @property {import("./version_ancestry.js").Edits} has
 * @property {import("./finding_rows.js").Edit} edit
 * @property {boolean} unsaved
 * @property {import("./finding_rows.js").Difference<import("./finding_rows.js").FaultRow>} faults
 * @property {import("./finding_rows.js").Difference<import("./finding_rows.js").TuneRow>} tunes
 * @property {number[]} written
 * @property {number[]} removed
 * @property {number} milliseconds */
/** Why something failed: with a status and what was answered, if there was an answer.
 * @typedef {Error & { status?: number, told?: any }} Failure
 * The edit on its way, with its number among those of this window, and the edits that the server's text gets by it.
 * @typedef {import("../text/text.js").Sent & { number: number, has: import("./version_ancestry.js").Edits }} Sent */
/** The situation of the link. Edits are sent while it follows, and in no other one. `away` says why the server counts as away.
 * What was asked for in one situation has no effect in the next one.
 * @typedef {{ name: "joining", away: string }} Joining the whole book was asked for, or waits till the text is not held
 * @typedef {{ name: "following", away: "", hearing: AbortController, sent: Sent | null }} Following what happens to the book
 * @typedef {{ name: "lost", away: string, retry: ReturnType<typeof setTimeout> }} Lost the server is away, and will be tried again
 * @typedef {{ name: "returning", away: string }} Returning it proves itself, and says what happened
 * @typedef {Joining | Following | Lost | Returning} Situation */

const AGAIN = [500, 1000, 2000, 4000]; // milliseconds before it is tried again
const POLL = 1000; // milliseconds between questions for news, if there are many windows
const TRIES = 5; // of a save, while edits of others arrive

export class Link {
  /** @param {import("../text/text.js").Text} text
   * @param {import("./book_host.js").BookHost} server */
  constructor(text, server) {
    this.text = text;
    this.server = server;
    this.window = crypto.randomUUID?.() ?? String(Math.random());
    /** @type {Situation} */
    this.situation = { name: "joining", away: "" };
    /** @type {State | null} */
    this.state = null; // of the server: run, version, moment, mark, returns, letters, unsaved, saved, disk, trouble, windows, hints
    /** @type {Ancestry | null} */
    this.ancestry = null; // the texts of the server
    /** @type {import("./version_ancestry.js").Edits} */
    this.has = {}; // the edits that this window's text has in it
    this.author = this.window; // of the edits of this window
    this.number = 0; // of the last one
    this.awaited = 0; // edits without an answer, also those that are known to have arrived
    /** @type {Set<string | null>} */
    this.files = new Set(); // what was in the file when the text was the file's
    /** @type {string[] | null} */
    this.stuck = null; // the lines of the text that the server did not take
    this.tries = 0;
    /** @type {Change[]} */
    this.waiting = []; // changes that came while the text was held
    /** @type {Promise<void>} */
    this.released = Promise.resolve(); // when the text is not held
    /** @type {(() => void) | null} */
    this.release = null; // ends a hold
    this.isDue = false; // what was typed is to be sent
    /** @type {() => void} */
    this.hurry = () => {}; // asks for news now, if the window has to ask
    /** @type {(book: Book | null, isWhole: boolean) => void} */
    this.opened = () => {}; // a whole book came
    /** @type {(change: Change, isOwn: boolean) => void} */
    this.changed = () => {}; // a change came: this window's own, or another's
    this.told = () => {}; // state or `away` is another
    /** @type {(mine: string[]) => void} */
    this.doubted = () => {}; // this window's text and the book both changed: which one?
    /** @type {(why: string) => void} */
    this.refused = () => {}; // an edit that the server does not take
    this.twice = () => {}; // another window changed the same letters
    /** @type {(start: number, stop: number) => import("./tokens_and_plays.js").Want | null} */
    this.sees = () => null; // what is seen of some lines and after them: an edit asks for it
    /** @type {(view: import("./tokens_and_plays.js").View, version: number) => void} */
    this.viewed = () => {}; // what an edit's answer has of that
  }

  /** The edit on its way. */
  get sent() {
    return this.situation.name === "following" ? this.situation.sent : null;
  }

  /** Why the server counts as away, "" if it is there. */
  get away() {
    return this.situation.away;
  }

  /** Whether the server has all that was typed. */
  get isSettled() {
    return !this.sent && !this.text.pending;
  }

  /** Whether the text is another one than the file. */
  get isUnsaved() {
    return !this.isSettled || (this.state !== null && this.state.unsaved);
  }

  /** Whether the text is in a file, or where the host keeps it: the window may go then. */
  get isSafe() {
    return this.state === null || !this.isUnsaved || (this.isSettled && this.server.isKept());
  }

  /** Whether the server refused the text as it is now: it is not sent again until it is another one. */
  get isStuck() {
    return this.stuck === this.text.lines;
  }

  /** The state of the server, which is known from the first book on. */
  get known() {
    if (!this.state) throw new Error("the server did not answer yet");
    return this.state;
  }

  /** The texts of the server, which are known from the first book on. */
  get texts() {
    if (!this.ancestry) throw new Error("the server did not answer yet");
    return this.ancestry;
  }

  /** Reads the book for the first time. */
  open() {
    return this.join("");
  }

  /** Goes to the next situation. An edit on its way is pending again: it may have arrived, and if so the server's text has it.
   * @template {Situation} S
   * @param {S} next
   * @returns {S} */
  enter(next) {
    const last = this.situation;
    if (last.name === "lost") clearTimeout(last.retry);
    if (last.name === "following") {
      last.hearing.abort();
      if (last.sent) this.texts.suppose(last.sent, joined(this.texts.has, last.sent.has));
      this.giveBack(last);
    }
    this.situation = next;
    return next;
  }

  /** Reads the whole book, and follows what happens to it from then on.
   * @type {(away: string) => Promise<void>} */
  async join(away) {
    const joining = this.enter(/** @type {Joining} */ ({ name: "joining", away }));
    try {
      /** @type {Book} */
      const book = await this.server.ask("book");
      while (this.release) await this.released;
      if (this.situation === joining) this.arrive(book);
    } catch (error) {
      if (this.situation === joining) this.lose(/** @type {Failure} */ (error));
    }
  }

  /** Holds the text as it is, or lets it go on: no change of others comes into it while the browser composes a letter.
   * @type {(isHeld: boolean) => void} */
  hold(isHeld) {
    if (isHeld === Boolean(this.release)) return;
    if (isHeld) {
      this.released = new Promise((done) => (this.release = done));
    } else {
      this.release?.();
      this.release = null;
      for (const change of this.waiting.splice(0)) this.advance(change);
      this.soon();
    }
  }

  /** A whole book. Text that only this window has is not lost by it: if the book was made of a text that this window knows, this
   * window's text becomes both, and else the user is asked.
   * @type {(book: Book) => void} */
  arrive(book) {
    const mine = this.text.lines, isSame = difference(book.lines, mine) === null, isOwn = this.isUnsaved && !isSame;
    const isFile = !book.unsaved && this.files.has(book.saved); // as it was when this window knew it
    const shared = isOwn ? (this.ancestry?.sharedWith(book, { lines: mine, has: this.has }) ?? (isFile ? { lines: book.lines, has: {} } : null)) : null;
    const isTwice = shared !== null && this.text.rebase(shared.lines, book.lines);
    if (!shared) this.text.open(book.lines);
    if (shared) this.texts.rejoin(book, shared);
    else if (isSame && this.ancestry) this.texts.meet(book, [{ lines: mine, has: joined(this.has, book.has) }]);
    else this.begin(book);
    this.has = joined(this.has, book.has);
    this.waiting = [];
    this.state = stateOf(book);
    this.files.add(book.saved);
    this.opened(book, !isOwn);
    if (isTwice) this.twice();
    if (isOwn && !shared) this.doubted(mine);
    this.follow();
  }

  /** The text of this window is the book's, and has no edits of its own. Those that it had are an earlier author's.
   * @type {(book: Book) => void} */
  begin(book) {
    this.has = {};
    if (this.number) this.author = `${this.window}.${this.number}`;
    if (this.ancestry) this.texts.meet(book, []);
    else this.ancestry = new Ancestry(book);
  }

  /** The server is there, and this window has its text, but for some changes.
   * @type {(changes?: Change[]) => void} */
  follow(changes = []) {
    const following = this.enter(/** @type {Following} */ ({ name: "following", away: "", hearing: new AbortController(), sent: null }));
    this.tries = 0;
    for (const change of changes) this.advance(change);
    this.told();
    this.soon();
    this.listen(following);
  }

  /** Makes the text of the book these lines.
   * @type {(lines: string[]) => void} */
  take(lines) {
    this.text.become(lines);
    this.opened(null, true);
  }

  /** Hears what happens to the book. A window that is one too many for the browser's connections asks again and again.
   * @type {(following: Following) => Promise<void>} */
  async listen(following) {
    following.hearing = new AbortController();
    try {
      await this.server.hear(`events/${this.known.version}/${this.window}`, following.hearing, (news) => this.hear(news));
    } catch (caught) {
      const error = /** @type {Failure} */ (caught);
      if (this.situation !== following) return;
      if (error.told?.full) this.poll(following);
      else this.lose(error);
    }
  }

  /** @type {(following: Following) => Promise<void>} */
  async poll(following) {
    try {
      for (;;) {
        if (this.server.canProve) await this.server.prove();
        const news = await this.news();
        if (this.situation !== following) return;
        this.hear({ state: news.state });
        for (const change of news.changes) this.hear({ change });
        if (this.situation !== following) return;
        if (news.room) return void this.listen(following);
        await new Promise((done) => {
          this.hurry = () => done(null);
          setTimeout(done, POLL);
        });
        if (this.situation !== following) return;
      }
    } catch (error) {
      if (this.situation === following) this.lose(/** @type {Failure} */ (error));
    }
  }

  /** What happened since this window heard of it last.
   * @type {() => Promise<{ state: State, changes: Change[], room: boolean }>} */
  news() {
    return this.server.ask(`news/${this.known.version}/${this.window}`);
  }

  /** @type {(news: { state?: State, change?: Change }) => void} */
  hear({ state, change }) {
    if (this.situation.name !== "following") return;
    if (state && state.run !== this.known.run) {
      this.join("");
    } else if (state) {
      this.know(state);
      this.soon();
    } else if (change) {
      this.advance(change);
    }
  }

  /** The state of the server, which may have made more changes than this window knows. What it says of the text and the file
   * counts if nothing later is known.
   * @type {(state: State) => void} */
  know(state) {
    const { known } = this;
    if (state.run !== known.run) return;
    const { moment, unsaved, saved, disk, mark, returns, letters } = state.moment < known.moment ? known : state;
    this.state = { ...stateOf(state), version: known.version, moment, unsaved, saved, disk, mark, returns, letters };
    this.files.add(saved);
    this.told();
  }

  /** A change, which is the next one or is known. While the text is held it waits.
   * @type {(change: Change) => void} */
  advance(change) {
    const { version } = this.waiting.at(-1) ?? this.known;
    if (change.version <= version) return;
    if (change.version > version + 1) return void this.join(this.away);
    if (this.release && (this.waiting.length || !this.isSent(change))) return void this.waiting.push(change);
    const { moment, unsaved } = change.moment < this.known.moment ? this.known : change;
    this.state = { ...this.known, version: change.version, moment, unsaved };
    this.apply(change);
    this.changed(change, change.window === this.window);
    this.told();
    this.soon();
  }

  /** Whether a change is the edit on its way.
   * @type {(change: Change) => boolean} */
  isSent({ has }) {
    return this.sent !== null && has[this.author] === this.sent.number;
  }

  /** Makes a change of the server's text in this window's text.
   * @type {(change: Change) => void} */
  apply(change) {
    const { situation, texts } = this, { window, edit } = change, isSent = this.isSent(change), had = this.has, has = joined(texts.has, change.has);
    const isKnown = Object.entries(lackedBy(change.has, texts.has)).some(([author, number]) => hasEdit(had, author, number));
    this.has = joined(had, change.has);
    if (isSent && situation.name === "following") {
      situation.sent = null;
      return texts.edit(edit, has, this.text.pending ? undefined : this.text.lines);
    }
    this.giveBack(situation);
    if (isKnown || texts.tops.length) return this.rejoin({ lines: replaced(texts.lines, edit.start, edit.stop, edit.lines), has }, had);
    texts.edit(edit, has);
    if (this.text.others(edit.start, edit.stop, edit.lines, window === null ? change.writing : null)) this.twice();
  }

  /** The server's text got edits that this window's text has too, or lacks some that it had, as after a restart of the server. Both
   * were made of a text that this window knows. `had` is what this window's text had before.
   * @type {(next: import("./version_ancestry.js").Version, had: import("./version_ancestry.js").Edits) => void} */
  rejoin(next, had) {
    const { text, texts } = this, count = text.lines.length, base = texts.sharedWith(next, { lines: text.lines, has: had }) ?? texts;
    const isTwice = text.rebase(base.lines, next.lines);
    texts.rejoin(next, base);
    text.edited(0, count, text.lines.length);
    if (isTwice) this.twice();
  }

  /** Something was typed: it is sent after the present act of the page, once the edit before it arrived. */
  soon() {
    if (this.isDue) return;
    this.isDue = true;
    queueMicrotask(() => {
      this.isDue = false;
      this.send();
    });
  }

  async send() {
    const { situation, text } = this;
    if (situation.name !== "following" || situation.sent || !text.pending || this.isStuck || this.waiting.length) return;
    const taken = text.take();
    if (!taken) return;
    this.number += 1;
    this.has = { ...this.has, [this.author]: this.number };
    const sent = (situation.sent = { ...taken, number: this.number, has: lackedBy(this.has, this.texts.has) });
    const { run, version } = this.known, { start, stop, lines, has } = sent;
    this.awaited += 1;
    try {
      const asked = { run, version, window: this.window, start, stop, lines, has, sees: this.sees(start, start + lines.length) };
      const { view, ...change } = await this.server.ask("edit", asked).finally(() => (this.awaited -= 1));
      if (this.situation === situation) this.advance(change);
      if (this.situation === situation && view) this.viewed(view, change.version);
    } catch (error) {
      if (situation.sent === sent) this.failed(/** @type {Failure} */ (error));
    }
    if (text.pending) this.soon();
  }

  /** An edit was refused, and is kept. One that was not answered may have arrived: what happens to the book will tell.
   * @type {(error: Failure) => void} */
  failed(error) {
    if (error.status === 409) this.catchUp(error.told);
    if (error.status) this.giveBack(this.situation);
    if (error.status === 413 || error.status === 400) {
      this.stuck = this.text.lines;
      this.refused(error.message);
      this.told();
    } else if (error.status !== 409) {
      this.lose(error);
    }
  }

  /** Makes the changes that this window lacks, as the server says, or reads the whole book.
   * @type {(told: State & { changes?: Change[] }) => void} */
  catchUp({ run, version, changes = [] }) {
    if (run !== this.known.run) return void this.join("");
    for (const change of changes) this.advance(change);
    if (this.situation.name === "following" && version > (this.waiting.at(-1) ?? this.known).version) this.join("");
  }

  /** The edit on its way did not arrive: it is pending again.
   * @type {(situation: Situation) => void} */
  giveBack(situation) {
    if (situation.name !== "following" || !situation.sent) return;
    this.text.giveBack(situation.sent);
    situation.sent = null;
  }

  /** The server is away: it is tried again. Nothing is asked of it before it proved that it is the same.
   * @type {(error: Failure) => void} */
  lose(error) {
    const retry = setTimeout(() => this.again(), AGAIN[Math.min(this.tries, AGAIN.length - 1)]);
    this.enter({ name: "lost", away: error.message, retry });
    this.tries += 1;
    this.server.lose();
    this.told();
  }

  /** Tries the server again. If it is the one that this window knows, what happened meanwhile comes first. */
  async again() {
    const returning = this.enter(/** @type {Returning} */ ({ name: "returning", away: this.away }));
    try {
      await this.server.prove();
      const news = this.state && (await this.news());
      if (this.situation !== returning) return;
      if (!news || !isNext(news, this.known)) return void this.join(this.away);
      this.follow(news.changes);
      this.know(news.state);
    } catch (error) {
      if (this.situation === returning) this.lose(/** @type {Failure} */ (error));
    }
  }

  /** Waits till the server has all that was typed. */
  async flush() {
    await this.released;
    while (!this.isSettled && !this.away && !this.isStuck) {
      this.send();
      await new Promise((done) => setTimeout(done, 30));
    }
    if (!this.isSettled || this.away) throw new Error(this.away ? `the ${this.server.called} is away (${this.away})` : `the ${this.server.called} does not take the last edit`);
  }

  /** The bytes that a save would write, as the server has them.
   * @type {() => Promise<ArrayBuffer | null>} */
  async bytes() {
    await this.flush();
    return this.server.bytes("text");
  }

  /** Saves the book, or loads it from disk; `over` names the content of the file on disk, if it was changed by another program.
   * Returns the changes of the text that a load made.
   * @param {string} name
   * @param {object} [over]
   * @returns {Promise<Change[]>} */
  async file(name, over) {
    for (let tries = 1; ; tries += 1) {
      await this.flush();
      const { run, version } = this.known;
      try {
        const told = await this.server.ask(name, { run, version, window: this.window, ...over });
        if (told.changes) this.catchUp(told);
        this.know(told);
        return told.changes ?? [];
      } catch (caught) {
        const error = /** @type {Failure} */ (caught);
        if (error.told && "ask" in error.told) this.know({ ...this.known, disk: error.told.ask });
        if (!error.told?.changes || tries === TRIES || this.situation.name !== "following") throw error;
        this.catchUp(error.told); // another window was first
      }
    }
  }
}

/** Whether news begin where a state ends.
 * @type {(news: { state: State, changes: Change[] }, known: State) => boolean} */
function isNext({ state, changes }, { run, version }) {
  return state.run === run && state.version === version + changes.length && (changes[0]?.version ?? version + 1) === version + 1;
}

/** @type {(state: State) => State} */
function stateOf({ run, version, moment, mark, returns, letters, unsaved, saved, disk, trouble, windows, hints }) {
  return { run, version, moment, mark, returns, letters, unsaved, saved, disk, trouble, windows, hints };
}
