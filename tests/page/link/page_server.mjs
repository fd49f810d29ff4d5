// Tries scripts of the page without a browser: the folder that has them is the argument. Each test prints a line, `ok`
// or `FAILED`, with its name.

import { pathToFileURL } from "node:url";

import { Book, KEY, PORT, RUN, answerOf } from "./book_server.mjs";
import { run, same } from "../testing.mjs";

const folder = process.argv[2];
const { Ancestry } = await import(pathToFileURL(`${folder}/link/version_ancestry.js`));
const { withMoves } = await import(pathToFileURL(`${folder}/text/moved_lines.js`));
const { hunksOf } = await import(pathToFileURL(`${folder}/text/myers_diff.js`));
const { Drafts } = await import(pathToFileURL(`${folder}/link/draft_store.js`));
const { Files } = await import(pathToFileURL(`${folder}/dialogs/book_saving.js`));
const { Link } = await import(pathToFileURL(`${folder}/link/host_link.js`));
const { Server } = await import(pathToFileURL(`${folder}/link/server_host.js`));
const { Text } = await import(pathToFileURL(`${folder}/text/text.js`));
const SECONDS = 300; // that a step may take, on a slow machine too
const SILENCE = 8000; // milliseconds after which a server is lost
const wait = globalThis.setTimeout;
const speed = { silence: 1, other: 10 }; // by which the scripts wait less
globalThis.setTimeout = (act, time) => wait(act, time / (time === SILENCE ? speed.silence : speed.other));
const PLACE = { start: { line: 0, column: 0 }, end: { line: 0, column: 0 }, direction: "forward" };

const OTHER = "fedcba9876543210".repeat(4);

let server = null;
globalThis.fetch = async (path, options) => {
  await new Promise((done) => setTimeout(done, 1));
  return answerOf(server, path, options);
};

/** Waits till something comes about. */
async function until(comes) {
  const end = Date.now() + SECONDS * 1000;
  while (!comes()) {
    if (Date.now() > end) throw new Error(`waited ${SECONDS} seconds in vain for ${comes}`);
    await new Promise((done) => setTimeout(done, 5));
  }
}

/** A window that has the book of a fresh server. */
async function opened(...lines) {
  server = new Book(...lines);
  const text = new Text(), link = new Link(text, new Server({ pathname: "/first/", port: PORT }, KEY));
  link.refusals = link.doubts = link.doubles = 0;
  link.refused = () => (link.refusals += 1);
  link.doubted = (mine) => {
    link.doubts += 1;
    link.doubtful = mine;
  };
  link.twice = () => (link.doubles += 1);
  text.edited = () => link.soon();
  links.push(link);
  await link.open();
  await until(() => server.streams.size);
  return [link, text];
}

const links = []; // of the present test

/** Closes the windows of a test. */
function close() {
  for (const link of links.splice(0)) {
    link.lose = link.join = link.send = () => {};
    link.enter({ name: "lost", away: "the test is over", retry: null });
  }
}

/** Whether window and server have this text, and know it. */
async function agree(link, text, ...lines) {
  await until(() => link.isSettled && !link.away && link.state.version === server.changes.length);
  same([text.lines, server.lines], [lines, lines]);
}

/** What `others` makes of a text, whose lines `own` were put in by this window: the text, what is pending, what it says. */
function others(lines, own, start, stop, put) {
  const text = new Text();
  text.open(lines);
  text.edit(own.start, own.stop, own.put, PLACE, PLACE);
  const twice = text.others(start, stop, put);
  return [text.lines.join(""), text.pending.start, text.pending.stop, text.pending.count, twice];
}

const tests = {
  async "an edit arrives"() {
    const [link, text] = await opened("a", "b");
    text.edit(1, 1, ["new"], PLACE, PLACE);
    await agree(link, text, "a", "new", "b");
    same(server.edits, 1);
  },

  async "an edit that arrived is not sent again though its answer was lost"() {
    const [link, text] = await opened("a", "b");
    server.lose = "answer";
    text.edit(1, 1, ["new"], PLACE, PLACE);
    await until(() => link.away);
    await agree(link, text, "a", "new", "b");
    same([server.edits, link.doubts], [1, 0]);
  },

  async "what is typed after a lost answer is sent once"() {
    const [link, text] = await opened("a", "b");
    server.lose = "answer";
    text.edit(1, 1, ["new"], PLACE, PLACE);
    await until(() => link.away);
    text.edit(1, 2, ["newer", "and more"], PLACE, PLACE);
    await agree(link, text, "a", "newer", "and more", "b");
    same([server.edits, link.doubts], [2, 0]);
  },

  async "an edit that was lost is sent again"() {
    const [link, text] = await opened("a", "b");
    server.lose = "edit";
    text.edit(1, 1, ["new"], PLACE, PLACE);
    await until(() => link.away);
    await agree(link, text, "a", "new", "b");
    same(server.edits, 2);
  },

  async "an edit that arrives when it was given up is there once"() {
    const [link, text] = await opened("a", "b");
    server.lose = "late";
    text.edit(1, 1, ["new"], PLACE, PLACE);
    await until(() => link.away);
    const send = link.send;
    link.send = async () => {};
    await until(() => !link.away);
    server.late();
    await until(() => link.isSettled);
    link.send = send;
    await agree(link, text, "a", "new", "b");
  },

  async "another window was first"() {
    const [link, text] = await opened("a", "b");
    server.lose = "edit";
    text.edit(1, 1, ["new"], PLACE, PLACE);
    await until(() => link.away);
    server.put("other", { start: 0, stop: 1, lines: ["A", "B"] });
    await agree(link, text, "A", "B", "new", "b");
    same([server.edits, link.doubles], [2, 0]);
  },

  async "an edit that is refused is sent no more till the text is another"() {
    for (const status of [413, 400]) {
      const [link, text] = await opened("a");
      server.refusal = status;
      text.edit(0, 1, ["x".repeat(1000)], PLACE, PLACE);
      await until(() => link.refusals || link.away);
      await new Promise((done) => setTimeout(done, 1200));
      same([status, server.edits, link.refusals, link.away], [status, 1, 1, ""]);
      let why = "";
      await link.file("save").catch((error) => (why = error.message));
      same(why, "the server does not take the last edit");
      text.undo();
      await agree(link, text, "a");
    }
  },

  async "text is unsaved while it is pending, and saved when the server says so"() {
    const [link, text] = await opened("a", "b");
    const seen = [link.isUnsaved];
    text.edit(1, 1, ["new"], PLACE, PLACE);
    seen.push(link.isUnsaved);
    await agree(link, text, "a", "new", "b");
    seen.push(link.isUnsaved);
    await link.file("save");
    seen.push(link.isUnsaved);
    same(seen, [false, true, true, false]);
  },

  async "'unsaved' follows the latest news, in whatever order they come"() {
    const [link, text] = await opened("a");
    const before = server.state, edit = { start: 0, stop: 0, lines: ["new"] };
    for (const stream of server.streams) server.streams.delete(stream);
    const change = server.put("other", edit);
    await server.answer(`/first/save`, { method: "POST", body: JSON.stringify({ run: RUN, version: 1 }) });
    link.hear({ state: server.state });
    link.hear({ change });
    same([text.lines, link.isUnsaved], [["new", "a"], false]); // another window edited and saved, and the state came first
    link.hear({ state: { ...before, unsaved: true } });
    same([link.isUnsaved, link.state.saved], [false, "new,a"]);
    link.hear({ state: { ...server.state, moment: server.moment + 1, disk: "another" } });
    same(link.state.disk, "another");
  },

  async "a book that another program changed is not saved over"() {
    const [link, text] = await opened("a");
    text.edit(1, 1, ["b"], PLACE, PLACE);
    await agree(link, text, "a", "b");
    server.disk = "another";
    await link.file("save").catch((error) => (link.why = error.message));
    same([link.why, link.state.disk, link.state.saved], ["changed on disk", "another", "a"]);
    await link.file("save", { over: "another" });
    same([link.state.disk, link.isUnsaved], ["a,b", false]);
  },

  async "what a load replaces can be taken back, and the page says so if the text was another one"() {
    const [link, text] = await opened("X:1", "K:C");
    const said = [], questions = { find: () => undefined };
    const files = new Files({ text, link, book: { name: "book.abc" }, questions, say: (words) => said.push(words), doubt: () => undefined, undoKey: "Ctrl-Z" });
    text.edit(1, 2, ["K:D"], PLACE, PLACE);
    for (const lines of [["X:1", "K:G"], ["X:1", "K:G"]]) {
      server.write(...lines);
      await files.load({ over: server.disk });
      same([text.lines, link.isUnsaved], [lines, false]);
    }
    same(said, ["Loaded book.abc from the disk. Ctrl-Z takes that back.", "Loaded book.abc from the disk."]);
    text.undo();
    same(text.lines, ["X:1", "K:D"]);
  },

  async "a server that was started again proves itself, and text that only the page has goes to it"() {
    const [link, text] = await opened("a");
    let addresses = 0;
    link.server.renewed = () => (addresses += 1);
    server.isDown = true;
    server.cut();
    await until(() => link.away);
    text.edit(1, 1, ["typed"], PLACE, PLACE);
    server.restart("a");
    server.isDown = false;
    await agree(link, text, "a", "typed");
    same([link.server.token, addresses, link.doubts], ["second", 1, 0]);
  },

  async "whoever took the port gets no token, no text, and no proof of the page"() {
    for (const taken of [{ key: OTHER }, { port: "20001" }]) {
      const [link, text] = await opened("a");
      server.restart("a");
      Object.assign(server, taken, { asked: [] });
      await until(() => link.away);
      text.edit(1, 1, ["typed"], PLACE, PLACE);
      await until(() => server.asked.length > 1);
      same(server.asked.filter((path) => !/^\/proof\/[0-9a-f]{32}$/.test(path)), []);
      same([link.away.includes("another program"), link.server.token, text.lines], [true, "first", ["a", "typed"]]);
      Object.assign(server, { key: KEY, port: PORT });
      await agree(link, text, "a", "typed");
    }
  },

  async "a stranger that answers nonsense gets nothing"() {
    const [link] = await opened("a");
    for (const nonsense of [{}, { run: RUN, proof: "" }, { run: [RUN], proof: 7 }, { run: "x y", proof: "0".repeat(64) }]) {
      server.prove = async (nonce, page) => (page ? [500, {}] : [200, nonsense]);
      server.asked = [];
      server.cut();
      await until(() => server.asked.length > 1);
      same(link.away.includes("another program"), true);
      same(server.asked.filter((path) => !/^\/proof\/[0-9a-f]{32}$/.test(path)), []);
    }
  },

  async "a proof that does not come to its end makes no stranger, and one that is no JSON does"() {
    const [link] = await opened("a");
    for (const [name, why] of [["TimeoutError", "it does not answer"], ["AbortError", "it does not answer"], ["TypeError", "it does not answer"], ["SyntaxError", "another program"]]) {
      const error = name === "SyntaxError" ? new SyntaxError("nonsense") : Object.assign(new Error("cut"), { name });
      server.breaks = (path) => path.startsWith("/proof/") && error;
      server.asked = [];
      server.cut();
      await until(() => server.asked.length > 1);
      same(link.away.includes(why), true);
    }
    server.breaks = null;
    await until(() => !link.away);
  },

  async "a window too many asks for news again and again"() {
    const [link, text] = await opened("a");
    server.isFull = true;
    server.cut();
    await until(() => server.asked.some((path) => path.includes("/news/")));
    text.edit(1, 1, ["typed"], PLACE, PLACE);
    await agree(link, text, "a", "typed");
    server.put("other", { start: 0, stop: 0, lines: ["new"] });
    await agree(link, text, "new", "a", "typed");
    server.isFull = false;
    await until(() => server.streams.size);
    same(link.away, "");
  },

  async "a server that says nothing is lost"() {
    speed.silence = 100;
    const [link] = await opened("a");
    await until(() => link.away);
    speed.silence = 1;
    await until(() => !link.away);
  },

  async "text of this window is in doubt if the book changed too, and later changes leave it alone"() {
    const [link, text] = await opened("a");
    server.isDown = true;
    server.cut();
    await until(() => link.away);
    text.edit(1, 1, ["typed"], PLACE, PLACE);
    server.restart("b");
    server.saved = server.disk = "b";
    server.isDown = false;
    await until(() => link.doubts);
    server.put(null, { start: 0, stop: 1, lines: ["c"] });
    await agree(link, text, "c");
    same([link.doubts, link.doubtful], [1, ["a", "typed"]]);
    link.take(link.doubtful);
    await agree(link, text, "a", "typed");
  },

  "what two texts have in common"() {
    const texts = new Ancestry({ lines: ["a"], has: { run: 0 } });
    texts.edit({ start: 1, stop: 1, lines: ["b"] }, { run: 0, one: 1 });
    texts.edit({ start: 1, stop: 2, lines: ["B"] }, { run: 0, one: 1, other: 1 });
    const all = { run: 9, next: 9, one: 9, other: 9, own: 9, more: 9, many: 9999 };
    const sharedBy = (own, has, ...lines) => texts.sharedWith({ lines, has }, { lines, has: own })?.lines;
    const shared = (has, ...lines) => sharedBy(all, has, ...lines);
    same([shared({ run: 0, one: 2 }, "x"), shared({ run: 0, one: 1, other: 4 }, "x"), shared({ run: 0, more: 1 }, "x")], [["a", "b"], ["a", "B"], ["a"]]);
    same([sharedBy({ run: 0, one: 1 }, { run: 0, one: 1, other: 4 }, "x"), sharedBy({ run: 0 }, all, "x")], [["a", "b"], ["a"]]);
    same([shared({ next: 0 }, "a", "b"), shared({ next: 0 }, "x"), shared({ next: 0, one: 2, other: 2 }, "x")], [["a", "b"], undefined, undefined]);
    texts.suppose({ start: 0, stop: 0, lines: ["own"] }, { run: 0, one: 1, other: 1, own: 1 });
    same([texts.lines, shared({ run: 0, one: 1, other: 1, own: 3 }, "x"), shared({ run: 0, one: 1, other: 2 }, "x")], [["a", "B"], ["own", "a", "B"], ["a", "B"]]);
    texts.rejoin({ lines: ["a", "b", "more"], has: { next: 0, run: 0, one: 1, more: 1 } }, { lines: ["a", "b"], has: { run: 0, one: 1 } });
    same(texts.tops.map(({ lines, has }) => [lines.join(" "), Object.keys(has).sort().join(" ")]), [["own a B more", "more next one other own run"], ["a B more", "more next one other run"]]);
    texts.edit({ start: 1, stop: 2, lines: ["B"] }, { next: 0, run: 0, one: 1, more: 1, other: 1, own: 2 });
    same([texts.tops, texts.lines], [[], ["a", "B", "more"]]);
    for (let n = 0; n < 1500; n += 1) texts.edit({ start: 0, stop: 0, lines: [`line ${n}`] }, { ...texts.has, many: n });
    same([texts.steps.length, shared({ next: 0, run: 0, one: 1 }, "x"), shared({}, ...texts.lines).length], [1000, undefined, 1503]);
  },

  "a text that was not made of what this window and the server have in common becomes no other one"() {
    const texts = new Ancestry({ lines: ["a"], has: { run: 0 } });
    texts.meet({ lines: ["a", "b"], has: { next: 0, one: 1 } }, []);
    texts.rejoin({ lines: ["a", "c"], has: { last: 0, two: 1 } }, { lines: ["a", "b"], has: { other: 0 } });
    same(texts.tops, []);
    texts.rejoin({ lines: ["d"], has: { four: 1 } }, { lines: ["a"], has: {} });
    same(texts.tops.map(({ lines, has }) => [lines, has]), [[["d", "c"], { last: 0, two: 1, four: 1 }]]);
  },

  "what two texts have at another place is there in the text of which they were made"() {
    same(withMoves(["same", "ABCDEF12", "end"], ["same", "12x", "ABCDEF", "end"], ["same", "1y2", "ABCDEF", "end", "z"]), ["same", "12ABCDEF", "end"]);
    same(withMoves(["a12", "b"], ["2a1", "b"], ["2xa1", "b"]), ["2a1", "b"]);
    const both = ["same", "12ABCDEF", "middle", "34GHIJKL", "end"]; // two moves
    same(withMoves(["same", "ABCDEF12", "middle", "GHIJKL34", "end"], both, both), both);
    for (const [base, own, other] of [[["ab"], ["ba"], ["ab"]], [["abc"], ["bca"], ["cab"]], [["a1"], ["1a"], ["a"]], [[], ["a"], ["a"]], [["a"], [""], [""]]]) {
      same(withMoves(base, own, other), base);
    }
    const long = "x".repeat(100_000);
    same(withMoves(["a", long], [long, "a"], [long, "a"])[0], "a");
  },

  "the text of some edits, of which no known text has these alone"() {
    const texts = new Ancestry({ lines: ["a", "b", "c"], has: { run: 0 } }), wanted = (...authors) => Object.fromEntries([["run", 0], ...authors.map((author) => [author, 1])]);
    const textOf = (...authors) => texts.textOf(wanted(...authors)).lines.join(" ");
    texts.edit({ start: 0, stop: 1, lines: ["a1"] }, wanted("one"));
    texts.edit({ start: 0, stop: 1, lines: ["a12"] }, wanted("one", "two"));
    texts.edit({ start: 3, stop: 3, lines: ["three"] }, wanted("one", "two", "three"));
    same([textOf(), textOf("two"), textOf("three"), textOf("one", "three"), textOf("two", "three")], ["a b c", "a2 b c", "a b c three", "a1 b c three", "a2 b c three"]);
    texts.meet({ lines: ["a", "b4", "c"], has: wanted("four") }, []);
    same([textOf("four", "one"), textOf("four", "two", "three"), textOf("four", "five")], ["a1 b4 c", "a2 b4 c three", "a b4 c"]);
    texts.edit({ start: 2, stop: 3, lines: ["c56"] }, wanted("four", "five", "six"));
    same([textOf("one", "four", "five", "six"), textOf("one", "five")], ["a1 b4 c56", "a1 b c"]);
  },

  "where lists differ"() {
    const found = (old, now) => hunksOf(old, now).map(({ start, stop, from, to }) => `${old.slice(start, stop)}>${now.slice(from, to)}`);
    same([found("abcd", "abcd"), found("", "ab"), found("ab", ""), found("abcdef", "xabdezf")], [[], [">ab"], ["ab>"], [">x", "c>", ">z"]]);
    same([found("abc", "axc"), found("aab", "aaab"), found("abcabba", "cbabac").length > 1], [["b>x"], [">a"], true]);
    for (let seed = 1; seed <= 300; seed += 1) {
      const [old, now] = [seed, seed * 7].map((n) => Array.from({ length: n % 13 }, (_, at) => "abc"[(n * (at + 3) * (at + seed)) % 3]).join(""));
      const hunks = hunksOf(old, now), build = hunks.reduceRight((text, { start, stop, from, to }) => text.slice(0, start) + now.slice(from, to) + text.slice(stop), old);
      same([build, hunks.every((hunk, n) => !n || (hunk.start > hunks[n - 1].stop && hunk.from > hunks[n - 1].to))], [now, true]);
    }
  },

  "what came from disk can be undone"() {
    const text = new Text();
    text.open(["a", "b"]);
    text.edit(0, 1, ["A"], PLACE, PLACE);
    text.take();
    text.others(1, 2, ["x", "y"], "one");
    text.others(0, 1, [], "other");
    same(text.lines, ["x", "y"]);
    text.undo();
    same(text.lines, ["A", "x", "y"]);
    text.undo();
    same(text.lines, ["A", "b"]);
    text.undo();
    same([text.lines, text.undo()], [["a", "b"], null]);
    text.take();
    text.others(0, 1, ["other"]);
    same(text.undo(), null);
  },

  "text in doubt has a key of its own"() {
    const kept = new Map();
    globalThis.localStorage = Object.assign(Object.create({
      setItem: (key, value) => Object.assign(localStorage, { [key]: value }),
      getItem: (key) => localStorage[key],
      removeItem: (key) => delete localStorage[key],
    }), kept);
    const drafts = new Drafts("book", "window"), next = new Drafts("book", "next");
    const keys = [drafts.putAside(["one"]), drafts.putAside(["two"])];
    drafts.keep(["three"]);
    drafts.forget();
    same(keys.map((key) => JSON.parse(localStorage[key]).text), ["one", "two"]);
    const state = { run: "1", unsaved: true };
    same([drafts.left(["x"], new Set(), state), next.left(["one"], new Set(), state).text], [null, "two"]);
    same([Object.keys(localStorage), next.left(["x"], new Set(keys), state)], [[keys[1]], null]);
    drafts.forget(keys[1]);
  },

  "text that the present run of the server had is not asked about"() {
    const closed = new Drafts("book", "closed"), next = new Drafts("book", "next"), none = new Set();
    closed.keep(["one"], "1");
    const left = (run, unsaved) => next.left(["one more"], none, { run, unsaved })?.text;
    same([left("1", true), left("2", true), left("2", false), left("1", false), left("2", true)], [undefined, "one", "one", undefined, undefined]);
  },

  "lines of others before and after one's own"() {
    const put = ["x"];
    same(others(["a", "b", "c"], { start: 1, stop: 1, put }, 1, 2, ["B"]), ["axBc", 1, 1, 1, false]);
    same(others(["a", "b", "c"], { start: 1, stop: 1, put }, 1, 3, []), ["ax", 1, 1, 1, false]);
    same(others(["a", "b", "c"], { start: 1, stop: 1, put }, 0, 1, ["A"]), ["Axbc", 1, 1, 1, false]);
    same(others(["a", "b", "c"], { start: 1, stop: 1, put }, 1, 1, ["y"]), ["ayxbc", 2, 2, 1, false]);
    same(others(["a", "b", "c"], { start: 1, stop: 2, put }, 2, 2, ["y"]), ["axyc", 1, 2, 1, false]);
    same(others(["a", "b", "c"], { start: 1, stop: 2, put }, 1, 1, ["y"]), ["ayxc", 2, 3, 1, false]);
    same(others(["a", "b", "c"], { start: 1, stop: 2, put }, 1, 2, ["y"]), ["ayxc", 1, 2, 2, true]);
    same(others(["a", "b", "c"], { start: 1, stop: 1, put }, 0, 2, ["y"])[4], true);
  },
};

await run(tests, close);
process.exit(0);
