// A server of one book for tests of the page's scripts in node, as the page's own answers.

export const KEY = "0123456789abcdef".repeat(4);
export const PORT = "20000", RUN = "0000000000000001";

/** A server of one book, as the page's own answers; `lose` says what becomes of the next edit. */
export class Book {
  constructor(...lines) {
    this.lines = this.savedLines = lines;
    this.token = "first";
    this.starts = 1;
    this.begin();
    this.streams = new Set();
    this.edits = 0; // that were asked for
    this.lose = null; // "answer", "edit", or "late": it arrives when it was given up
    this.most = 500; // bytes of an edit
    this.refusal = 413; // the status that answers a longer one
    this.key = KEY; // of whoever has the port
    this.port = PORT; // that its proofs name
    this.isFull = false;
    this.saved = "a";
    this.disk = "a";
    this.isDown = false;
    this.breaks = null; // says by which error the body of an answer ends, if it does
    this.asked = []; // the paths that were asked for
  }

  /** A run of the server begins. */
  begin() {
    this.run = RUN.slice(0, -4) + String(this.starts).padStart(4, "0");
    this.changes = [];
    this.has = { [this.run]: 0 };
    this.moment = 0;
  }

  get version() {
    return this.changes.length;
  }

  get unsaved() {
    return this.lines.join("\n") !== this.savedLines.join("\n");
  }

  get state() {
    const { run, saved, disk, unsaved, version, moment } = this;
    return { run, version, moment, unsaved, saved, disk, trouble: "", windows: 1, hints: 0 };
  }

  put(window, { start, stop, lines }, writing = String(this.version + 1), has = { [this.run]: this.version + 1 }) {
    this.lines = this.lines.slice(0, start).concat(lines, this.lines.slice(stop));
    for (const [name, count] of Object.entries(has)) this.has[name] = Math.max(count, this.has[name] ?? 0);
    this.moment += 1;
    const { moment, unsaved } = this;
    const change = { version: this.version + 1, moment, window, writing, has, edit: { start, stop, lines }, unsaved };
    this.changes.push(change);
    for (const stream of this.streams) stream({ change });
    return change;
  }

  /** Ends all streams. */
  cut() {
    for (const stream of this.streams) stream(null);
  }

  /** Another start over these lines. */
  restart(...lines) {
    this.cut();
    this.starts += 1;
    Object.assign(this, { lines, savedLines: lines, token: this.starts === 2 ? "second" : `start ${this.starts}` });
    this.begin();
  }

  /** What answers a request: a status and an object; or nothing answers it. */
  async answer(path, { method, body } = {}) {
    this.asked.push(path);
    if (this.isDown) throw new Error("down");
    const [token, ...words] = path.slice(1).split("/");
    if (token === "proof") return this.prove(...words);
    if (token !== this.token) return [403, { error: "another token" }];
    const name = words.join("/");
    if (name === "book") return [200, { lines: this.lines, has: { ...this.has }, ...this.state }];
    if (name === "state") return [200, this.state];
    if (words[0] === "events") return this.isFull ? [503, { error: "many windows", full: true }] : [200, null];
    if (words[0] === "news") return [200, { changes: this.changes.slice(Number(words[1])), state: this.state, room: !this.isFull }];
    if (method !== "POST") throw new Error(name);
    const asked = JSON.parse(body);
    if (name === "edit") this.edits += 1;
    if (body.length > this.most) return [this.refusal, { error: "too long" }];
    if (asked.run !== this.run) return [409, { error: "another run", ...this.state }];
    if (asked.version !== this.version) return [409, { error: "another", changes: this.changes.slice(asked.version), ...this.state }];
    if (name === "view") return [200, { view: this.viewOf(asked.sees) }];
    if (name === "save") return this.save(asked);
    if (name === "load") return this.load();
    return this.edit(asked);
  }

  /** What is seen: a token of the kind 1 for each line, and no play. */
  viewOf({ from, to, tune }) {
    return { from, to, tokens: this.lines.slice(from, to).map((line) => [0, line.length, 1, 0]), tune, play: null };
  }

  save({ over }) {
    if (this.disk !== (over ?? this.saved)) return [409, { error: "changed on disk", ask: this.disk }];
    this.saved = this.disk = this.lines.join();
    this.savedLines = this.lines;
    this.moment += 1;
    for (const stream of this.streams) stream({ state: this.state });
    return [200, this.state];
  }

  /** Another program writes these lines. */
  write(...lines) {
    this.diskLines = lines;
    this.disk = lines.join();
  }

  load() {
    const isOther = this.diskLines.join() !== this.lines.join();
    const changes = isOther ? [this.put(null, { start: 0, stop: this.lines.length, lines: this.diskLines })] : [];
    this.saved = this.disk;
    this.savedLines = this.lines;
    this.moment += 1;
    return [200, { changes, ...this.state }];
  }

  edit({ window, start, stop, lines, has, sees }) {
    const { lose } = this;
    this.lose = null;
    if (lose === "edit") this.cut();
    if (lose === "edit") throw new Error("lost");
    const edit = { start, stop, lines };
    if (lose === "late") this.late = () => this.put(window, edit, undefined, has);
    const change = lose === "late" ? null : this.put(window, edit, undefined, has);
    if (!lose) return [200, sees ? { ...change, view: this.viewOf(sees) } : change];
    this.cut();
    throw new Error("lost");
  }

  async prove(nonce, page) {
    if (!page) return [200, { run: this.run, proof: await this.proof("server", nonce) }];
    return page === (await this.proof("page", nonce)) ? [200, { token: this.token }] : [403, { error: "no page of this book" }];
  }

  async proof(who, nonce) {
    const hash = { name: "HMAC", hash: "SHA-256" };
    const key = await crypto.subtle.importKey("raw", Buffer.from(this.key, "hex"), hash, false, ["sign"]);
    return Buffer.from(await crypto.subtle.sign("HMAC", key, Buffer.from(`${who} ${this.port} ${this.run} ${nonce}`))).toString("hex");
  }

  /** The body of an answer that tells changes after a version, and what comes then. */
  stream(version, signal) {
    return new ReadableStream({
      start: (control) => {
        const encode = (news) => new TextEncoder().encode(`${JSON.stringify(news)}\n\n`);
        const end = () => {
          this.streams.delete(tell);
          try {
            control.close();
          } catch {
            // it is closed
          }
        };
        const tell = (news) => setTimeout(() => {
          if (news && this.streams.has(tell)) control.enqueue(encode(news));
          else if (!news) end();
        }, 5);
        this.streams.add(tell);
        signal.addEventListener("abort", end);
        tell({ state: this.state });
        for (const change of this.changes.slice(version)) tell({ change });
      },
    });
  }
}

/** What the page's `fetch` gets from a server. */
export async function answerOf(server, path, options) {
  const [status, told] = await server.answer(path, options), broken = server.breaks?.(path);
  const json = async () => {
    if (broken) throw broken;
    return JSON.parse(JSON.stringify(told));
  };
  const body = told === null ? server.stream(Number(path.split("/")[3]), options.signal) : null;
  return { ok: status === 200, status, headers: new Headers(), json, body };
}
