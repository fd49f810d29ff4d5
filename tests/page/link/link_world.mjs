// A world for the page's link in node: a clock of its own, and a way to a stand-in for the server that is slow, is killed, and is
// started again. The same seed gives the same events.

import { Book } from "./book_server.mjs";
import { chances } from "../testing.mjs";

const NO_ANSWER = "it does not answer";

/** A clock that goes from one act to the next. */
export class Clock {
  constructor() {
    this.now = 0;
    this.acts = [];
    this.count = 0;
  }

  set(act, delay = 0) {
    const when = this.now + Math.max(0, delay);
    let at = this.acts.length;
    while (at > 0 && this.acts[at - 1].when > when) at -= 1;
    this.count += 1;
    this.acts.splice(at, 0, { when, act, number: this.count });
    return this.count;
  }

  clear(number) {
    this.acts = this.acts.filter((one) => one.number !== number);
  }

  /** Goes on till a time, or till something comes about. */
  async run(until, comes = () => false) {
    while (this.acts.length && this.acts[0].when <= until && !comes()) {
      const { when, act } = this.acts.shift();
      this.now = when;
      act();
      await new Promise(setImmediate);
    }
    if (!comes()) this.now = until;
  }
}

/** A server of one book, how long a message takes, and the ways of the windows to it. */
export class World {
  constructor(seed, latency, ...lines) {
    this.chance = chances(seed);
    this.clock = new Clock();
    this.latency = latency;
    this.book = new Book(...lines);
    this.book.saved = this.book.disk = lines.join("\n");
    this.book.most = Infinity;
    this.disk = [...lines];
    this.savedTexts = []; // each with the window that saved it
    const { save } = this.book;
    this.book.save = (asked) => {
      const answer = save.call(this.book, asked);
      if (answer[0] === 200) {
        this.book.saved = this.book.disk = this.book.lines.join("\n");
        this.disk = this.book.lines;
        this.savedTexts.push({ window: asked.window, text: this.disk.join("\n") });
      }
      return answer[0] === 200 ? [200, this.book.state] : answer;
    };
  }

  delay() {
    return this.chance(this.latency + 1);
  }

  kill() {
    this.book.isDown = true;
    this.book.cut();
  }

  /** Another start, over what the file has. */
  restart() {
    this.book.restart(...this.disk);
    this.book.saved = this.book.disk = this.disk.join("\n");
    this.book.isDown = false;
  }

  way() {
    return new Way(this);
  }
}

/** The way of a window to the server, in place of the page's `Server`. */
class Way {
  constructor(world) {
    this.world = world;
    this.token = world.book.token;
    this.canProve = true;
    this.given = new Set(); // what ends each trip without an answer
  }

  /** Lets something happen at the server after a while, and its answer come after another: neither comes if this is given up,
   * though the request may arrive. The answer of a server that was killed meanwhile comes or does not. */
  trip(act) {
    const { world, given } = this, { clock, book } = world;
    return new Promise((done, fail) => {
      given.add(fail);
      clock.set(async () => {
        const isDown = book.isDown, { run } = book;
        const answer = isDown ? null : JSON.stringify(await act());
        clock.set(() => {
          given.delete(fail);
          const isLost = isDown || ((book.isDown || book.run !== run) && world.chance(2));
          if (isLost) fail(new Error(NO_ANSWER));
          else done(JSON.parse(answer));
        }, world.delay());
      }, world.delay());
    });
  }

  async ask(name, body) {
    const path = `/${this.token}/${name}`;
    const [status, told] = await this.trip(() => this.world.book.answer(path, body && { method: "POST", body: JSON.stringify(body) }));
    if (status !== 200) throw Object.assign(new Error(told.error), { status, told });
    return told;
  }

  async prove() {
    this.token = await this.trip(() => this.world.book.token);
  }

  lose() {
    for (const fail of this.given) fail(new Error(NO_ANSWER));
    this.given.clear();
  }

  /** Hears news in order till the server is killed or this is given up. */
  async hear(name, control, heard) {
    const { book, clock } = this.world, version = Number(name.split("/")[1]);
    await new Promise((_, fail) => {
      const end = () => fail(new Error(NO_ANSWER));
      let last = 0; // when the latest news arrives
      const later = (act) => {
        last = Math.max(last, clock.now + this.world.delay());
        clock.set(act, last - clock.now);
      };
      const tell = (news) => {
        if (news === null) book.streams.delete(tell);
        const text = JSON.stringify(news);
        later(() => {
          if (news === null) end();
          else if (!control.signal.aborted) heard(JSON.parse(text));
        });
      };
      const close = () => {
        book.streams.delete(tell);
        end();
      };
      control.signal.addEventListener("abort", close);
      clock.set(() => {
        if (control.signal.aborted) return;
        if (book.isDown || !name || this.token !== book.token) return later(end);
        book.streams.add(tell);
        tell({ state: book.state });
        for (const change of book.changes.slice(version)) tell({ change });
      }, this.world.delay());
    }).finally(() => control.abort());
  }
}
