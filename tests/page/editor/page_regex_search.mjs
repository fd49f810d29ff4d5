// Tries the search for regular expressions without a browser, with the page's own worker. The folder of the page's scripts is the
// argument. Each test prints a line, `ok` or `FAILED`, with its name.

import { pathToFileURL } from "node:url";

import { NodeWorker } from "./node_worker.mjs";
import { run, same } from "../testing.mjs";

const folder = process.argv[2];
const from = (name) => import(pathToFileURL(`${folder}/${name}.js`));
const { Expressions } = await from("editor/regex_search");
const { Matches, sought } = await from("editor/search_matches");

const SECONDS = 300; // that a step may take, on a slow machine too
const what = (words) => sought({ words, matchesCase: true, isWhole: false, isRegular: true });
const ENDLESS = "(a+)+$", LONG = `${"a".repeat(34)}!`; // 150 seconds and more
const MISSING = new URL("data:text/javascript,throw new Error('missing')");

/** Waits till something comes about. */
async function until(comes) {
  const end = Date.now() + SECONDS * 1000;
  while (!comes()) {
    if (Date.now() > end) throw new Error(`waited ${SECONDS} seconds in vain for ${comes}`);
    await new Promise((done) => setTimeout(done, 5));
  }
}

const searches = []; // of the present test

/** A search over some lines. */
function searching(lines, words, script = pathToFileURL(`${folder}/editor/search_worker.js`)) {
  const expressions = new Expressions(() => new NodeWorker(script)), matches = new Matches(lines, what(words));
  const search = { expressions, matches, why: "" };
  expressions.heard = (at, found) => search.matches.learn(at, found);
  expressions.failed = (why) => (search.why = why);
  expressions.look(lines, matches.what, matches.gaps());
  searches.push(search);
  return search;
}

/** Looks for something else. */
function lookFor(search, words) {
  const { lines } = search.matches;
  search.matches = new Matches(lines, what(words));
  search.expressions.look(lines, search.matches.what, search.matches.gaps());
}

/** An edit of the lines. */
function edit(search, start, stop, ...put) {
  const { matches, expressions } = search, lines = matches.lines.slice(0, start).concat(put, matches.lines.slice(stop));
  matches.edited(lines, start, stop, put.length);
  expressions.edited(lines, { start, stop, put }, matches.what, matches.gaps());
}

function close() {
  for (const { expressions } of searches.splice(0)) expressions.end();
}

const tests = {
  async "matches come with their groups"() {
    const { matches } = searching(["C2 D", "", "E4"], "(?<note>[A-G])(\\d)");
    same([matches.next({ line: 0, column: 0 }, true), matches.isDone], [undefined, false]);
    await until(() => matches.isDone);
    const match = { start: 0, end: 2, texts: ["E4", "E", "4"], groups: { note: "E" }, line: 2 };
    same([matches.next({ line: 0, column: 1 }, true), matches.total, matches.before(2, 2)], [match, 2, 2]);
    same([matches.next({ line: 0, column: 0 }, false), matches.next({ line: 2, column: 1 }, true).line], [match, 0]);
  },

  async "a search goes on in slices, and follows edits"() {
    const search = searching(Array.from({ length: 200_000 }, (_, n) => `C${n % 10}`), "C3");
    edit(search, 0, 2, "C3", "C3", "C3");
    await until(() => search.matches.isDone);
    same([search.matches.total, search.matches.placesIn(4).map(({ start }) => start), search.why], [20_003, [0], ""]);
    edit(search, 1, 4);
    edit(search, 0, 1, "x");
    await until(() => search.matches.isDone);
    same([search.matches.total, search.matches.lines.length, search.matches.gaps()], [20_000, 199_998, []]);
  },

  async "an expression that takes too long is given up, the page goes on meanwhile, and the next one is found"() {
    const search = searching(["X:1", LONG, "aa"], ENDLESS);
    const begin = Date.now();
    let ticks = 0;
    const ticking = setInterval(() => (ticks += 1), 10);
    await until(() => search.why);
    clearInterval(ticking);
    same([search.why, ticks > 20, Date.now() - begin < 60_000], ["This expression takes too long.", true, true]);
    lookFor(search, "a+");
    await until(() => search.matches.isDone);
    same(search.matches.total, 2);
  },

  async "another expression does not wait for one that takes too long"() {
    const search = searching([LONG], "a");
    await until(() => search.matches.isDone);
    for (const words of [ENDLESS, ENDLESS, ENDLESS, "a!"]) lookFor(search, words);
    await until(() => search.matches.isDone);
    same([search.matches.total, search.why], [1, ""]);
  },

  async "a line that is edited into an endless one"() {
    const search = searching(["aa", "b"], ENDLESS);
    await until(() => search.matches.isDone);
    edit(search, 1, 2, LONG);
    await until(() => search.why);
    same(search.why, "This expression takes too long.");
  },

  async "a worker that does not begin"() {
    const search = searching(["a"], "a", MISSING);
    await until(() => search.why);
    same(search.why, "The search cannot begin: the server is away.");
  },
};

await run(tests, close);
process.exit(0);
