// Tries what the page knows of the lines and the tune that are seen, over a stand-in for the host. The folder of the page's scripts is the
// argument, or `kinds`, for the names of the kinds. Each test prints a line, `ok` or `FAILED`, with its name.

import { pathToFileURL } from "node:url";

import { run, same } from "../testing.mjs";

const { ENTRY_KINDS, KINDS, Seen } = await import(pathToFileURL(`${process.argv[2]}/link/tokens_and_plays.js`));

if (process.argv[3] === "kinds") {
  console.log(KINDS.join());
  console.log(ENTRY_KINDS.join());
  process.exit();
}

const NOTE = KINDS.indexOf("Note"), FREE = KINDS.indexOf("FreeText");

/** What the page knows of a host's text, of which this window has the same lines; `asked` has what it asked. */
function begin(...lines) {
  const text = { lines, pending: null }, asked = [];
  const link = { situation: { name: "following" }, sent: null, awaited: 0, isSettled: true, known: { run: "a", version: 1 }, texts: { lines } };
  const host = { views: [] };
  const server = {
    async ask(name, body) {
      asked.push([name, body]);
      if (!host.views.length) throw new Error("another version");
      return { view: host.views.shift() };
    },
  };
  const seen = new Seen(text, link, server);
  let heard = 0;
  seen.hearers.push(() => (heard += 1));
  return { seen, text, link, host, asked, heard: () => heard };
}

/** An edit of this window that the host does not have yet. */
function type({ text }, start, stop, ...lines) {
  text.pending = { start, stop, count: lines.length, taken: text.lines.slice(start, stop) };
  text.lines = [...text.lines.slice(0, start), ...lines, ...text.lines.slice(stop)];
}

/** The host has the text of the window. */
function settle({ text, link, seen }, edit) {
  text.pending = null;
  link.texts = { lines: text.lines };
  link.known = { run: "a", version: link.known.version + 1 };
  seen.change(edit);
}

const soon = (milliseconds = 5) => new Promise((done) => setTimeout(done, milliseconds));
const token = (from, to, kind = "Note", depth = 0) => ({ from, to, kind, depth });
const entry = (line, from, to, more = {}) => ({ on: 0, off: 480, line, from, to, kind: "Note", key: 60, velocity: 80, joined: false, ...more });
const view = (more) => ({ from: 0, to: 2, tokens: [[0, 1, NOTE, 0, 1, 2, NOTE, 0], []], tune: null, play: null, ...more });
const PLAY = [[], [0, 480, 0, 0, 1, 1, 60, 80, 0, 480, 960, 1, 0, 1, 2, 128, 0, 0]];

const tests = {
  async "the joined tones are those with the first bit of their ties"() {
    const { seen, host } = begin("ABCD");
    const row = (ties) => [0, 480, 0, ties, ties + 1, 1, 60, 80, ties];
    host.views.push(view({ to: 1, tokens: [[]], tune: 3, play: [[], [0, 1, 2, 3].flatMap(row)] }));
    seen.want({ tune: 3 });
    await soon();
    same(seen.playOf(3).tracks[1].entries.map((one) => one.joined), [false, true, false, true]);
  },
  async "what is not known is asked for once, and comes to who draws"() {
    const world = begin("AB", "z"), { seen, host, asked } = world;
    host.views.push(view({ tune: 3, play: PLAY }));
    same([seen.tokensOf(0), seen.playOf(3)], [null, null]);
    seen.want({ from: 0, to: 2 });
    seen.want({ tune: 3 });
    await soon();
    same(asked, [["view", { run: "a", version: 1, sees: { from: 0, to: 2, tune: 3 } }]]);
    same([seen.tokensOf(0), seen.tokensOf(1)], [[token(0, 1), token(1, 2)], []]);
    const rest = entry(1, 0, 1, { on: 480, off: 960, kind: "Rest", key: null, velocity: null });
    same(seen.playOf(3), { number: 3, tracks: [{ entries: [] }, { entries: [entry(0, 0, 1), rest] }] });
    same([seen.playOf(4), seen.playOf(null), world.heard()], [null, null, 1]);
    seen.want({ from: 0, to: 2 });
    await soon(400);
    same(asked.length, 1);
  },

  async "tokens of a line that is typed in are those of its begin and its end"() {
    const world = begin("AB", "z"), { seen } = world;
    seen.learn(view({}), 1);
    type(world, 0, 1, "AxyB");
    same(seen.tokensOf(0), [token(0, 1), token(3, 4)]);
    type(world, 0, 1, "B");
    same(seen.tokensOf(0), [token(0, 1)]);
    type(world, 0, 1, "AB");
    same(seen.tokensOf(0), [token(0, 1), token(1, 2)]);
  },

  async "lines that are put in move what is known"() {
    const world = begin("AB", "z"), { seen } = world;
    seen.learn(view({ tune: 3, play: PLAY }), 1);
    const before = seen.playOf(3);
    same(seen.playOf(3) === before, true);
    type(world, 0, 0, "%");
    same([seen.tokensOf(0), seen.tokensOf(1)], [null, [token(0, 1), token(1, 2)]]);
    same(seen.playOf(3).tracks[1].entries.map(({ line }) => line), [1, 2]);
    settle(world, { start: 0, stop: 0, lines: ["%"] });
    same([seen.tokensOf(1), seen.playOf(3).tracks[1].entries.map(({ line }) => line)], [[token(0, 1), token(1, 2)], [1, 2]]);
    type(world, 1, 2);
    same(seen.playOf(3).tracks[1].entries.map(({ line }) => line), [-1, 1]);
  },

  async "an edit asks for the lines that it may change, and the others come later"() {
    const world = begin(..."A".repeat(200)), { seen, link, host, asked } = world;
    seen.want({ from: 0, to: 200, tune: null });
    same(link.sees(5, 6), { from: 5, to: 36, tune: null });
    same(link.sees(190, 191), { from: 190, to: 200, tune: null });
    same(link.sees(300, 301), { from: 300, to: 300, tune: null });
    const all = Array(200).fill([0, 1, NOTE, 0]), free = Array(31).fill([0, 1, FREE, 0]);
    seen.learn(view({ from: 0, to: 200, tokens: all }), 1);
    type(world, 4, 5, "");
    settle(world, { start: 4, stop: 5, lines: [""] });
    seen.learn(view({ from: 5, to: 36, tokens: free }), 2);
    same([4, 5, 36].map((line) => seen.tokensOf(line)?.[0]?.kind), [undefined, "FreeText", "Note"]);
    await soon();
    same(asked, []);
    host.views.push(view({ from: 0, to: 200, tokens: [...all.slice(0, 4), [], ...Array(195).fill([0, 1, FREE, 0])] }));
    await soon(400);
    same([asked.length, seen.tokensOf(36)[0].kind], [1, "FreeText"]);
  },

  async "an answer on another version does not count, and nothing is asked while an edit has no answer"() {
    const world = begin("AB", "z"), { seen, link, host, asked } = world;
    seen.learn(view({}), 2);
    same([seen.tokensOf(0), seen.tokensOf(2)], [null, null]); // the text has two lines
    link.awaited = 1;
    seen.want({ from: 0, to: 2 });
    await soon();
    same(asked, []);
    link.awaited = 0;
    host.views.push(view({}));
    seen.look();
    await soon();
    same([asked.length, seen.tokensOf(0)], [1, [token(0, 1), token(1, 2)]]);
  },

  async "the same play is the same object, and another one is not"() {
    const { seen } = begin("AB", "z");
    seen.learn(view({ tune: 3, play: PLAY }), 1);
    const play = seen.playOf(3);
    seen.learn(view({ tune: 3, play: structuredClone(PLAY) }), 1);
    same(seen.playOf(3) === play, true);
    seen.learn(view({ tune: 3, play: [[], PLAY[1].slice(0, 9)] }), 1);
    same(seen.playOf(3).tracks[1].entries.length, 1);
    seen.forget();
    same([seen.playOf(3), seen.tokensOf(0)], [null, [token(0, 1), token(1, 2)]]);
  },
};

await run(tests);
