// Which tab has a book: one at a time. Another one can have it moved there.

const PATIENCE = 2000; // milliseconds in which the other tab answers
const MOST_STORING = 30000; // milliseconds in which it stores the book after that
const WANTED = "wanted", COMING = "coming"; // what the tabs with a book send each other

/** @type {LockManager | undefined} */
const locks = globalThis.navigator?.locks; // a page that did not come by https has none

export class BookLock {
  /** The lock of a book of the pages at a path.
   * @param {string} path
   * @param {string} id
   * @param {number} patience */
  constructor(path, id, patience = PATIENCE) {
    this.patience = patience;
    this.name = `abc2midi_live ${path} ${id}`;
    this.release = () => {};
    /** @type {() => Promise<void>} */
    this.wanted = async () => {}; // another tab wants the book: keeps it
    this.lost = () => {}; // another tab has the book
    this.channel = new BroadcastChannel(this.name);
    this.isHeld = false;
  }

  /** Takes the book, unless another tab has it: whether this one has it.
   * @type {() => Promise<boolean>} */
  async take() {
    return this.request({ ifAvailable: true });
  }

  /** Has the book moved to this tab. A tab that does not answer, or stores for too long, loses it.
   * @type {() => Promise<void>} */
  async move() {
    const limit = new AbortController(), wait = (/** @type {number} */ most) => setTimeout(() => limit.abort(), most);
    let timer = wait(this.patience);
    this.channel.onmessage = ({ data }) => {
      if (data !== COMING) return;
      clearTimeout(timer);
      timer = wait(MOST_STORING);
    };
    this.channel.postMessage(WANTED);
    const isMoved = await this.request({ signal: limit.signal }).catch(() => false);
    clearTimeout(timer);
    if (!isMoved) await this.request({ steal: true });
  }

  /** Requests the lock, and holds it till it is released: whether it was granted.
   * @type {(options: LockOptions) => Promise<boolean>} */
  request(options) {
    return new Promise((granted, failed) => {
      if (!locks) return granted(true);
      const held = locks.request(this.name, options, (lock) => {
        if (!lock) return granted(false);
        this.hold();
        granted(true);
        return new Promise((done) => (this.release = () => done(undefined)));
      });
      held.catch((error) => (this.isHeld ? this.lose() : failed(error)));
    });
  }

  /** This tab has the book: it gives it up when another one wants it. */
  hold() {
    this.isHeld = true;
    this.channel.onmessage = async ({ data }) => {
      if (data !== WANTED) return;
      this.channel.postMessage(COMING);
      await this.wanted();
      this.lose();
      this.release();
    };
  }

  lose() {
    if (!this.isHeld) return;
    this.isHeld = false;
    this.channel.onmessage = null;
    this.lost();
  }
}
