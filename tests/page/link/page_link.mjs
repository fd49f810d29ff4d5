// Tries windows over one book whose server is slow, is killed at any moment, and is started again over the file. It needs no
// browser, and the clock is its own. The arguments are the folder of the page's scripts, and the first and the last seed of the
// random schedules. Each test prints a line, `ok` or `FAILED`, with its name.

import { pathToFileURL } from "node:url";

import { World } from "./link_world.mjs";
import { sheetRoot } from "../stub_document.mjs";
import { chances, run, same } from "../testing.mjs";

const [folder, first, last] = process.argv.slice(2);
const from = (name) => import(pathToFileURL(`${folder}/${name}.js`));
const { Link } = await from("link/host_link");
const { Sheet } = await from("editor/text_sheet");
const { Text } = await from("text/text");

const QUIET = 60_000; // milliseconds in which all windows agree
const LETTERS = [0x4e00, 0x6e00, 0x8e00]; // where the letters of each window begin: each is typed once
const BOOK = ["X:1", "K:C", "CDE", "", "X:2", "K:D", "DEF", ""];

let world = null;
globalThis.setTimeout = (act, time) => world.clock.set(act, time);
globalThis.clearTimeout = (number) => world.clock.clear(number);

/** A window over the book of the world, which types letters that nobody else types. */
class Window {
  constructor(place) {
    this.text = new Text();
    this.link = new Link(this.text, world.way());
    this.sheet = new Sheet(this.text, sheetRoot());
    this.area = this.sheet.area;
    this.typed = [];
    this.had = new Set(); // the texts that it had
    this.offered = []; // the texts that it asked about
    this.twice = 0;
    this.next = LETTERS[place];
    this.link.doubted = (mine) => this.offered.push(mine);
    this.link.twice = () => (this.twice += 1);
    const note = () => this.had.add(this.text.lines.join("\n"));
    this.link.opened = note;
    this.text.edited = () => {
      note();
      this.link.soon();
    };
  }

  get isQuiet() {
    const { link, text } = this, { book } = world;
    return link.isSettled && !link.away && link.state?.run === book.run && link.state.version === book.version && text.lines.length === book.lines.length;
  }

  goTo(line, column) {
    this.sheet.select({ line, column }, { line, column });
  }

  type(words = "") {
    const letter = String.fromCharCode(this.next);
    this.next += 1;
    this.typed.push(letter);
    this.area.type(letter + words);
  }

  /** What was typed before the caret. */
  before() {
    const { line, column } = this.sheet.caret();
    return this.text.lines[line].slice(0, column);
  }

  /** Saves. What it says if it cannot is no matter here. */
  async save() {
    await this.link.file("save").catch(() => {});
  }
}

/** Windows over a fresh world, which have the book. */
async function opened(seed, latency, count, lines = BOOK) {
  world = new World(seed, latency, ...lines);
  const windows = Array.from({ length: count }, (_, n) => new Window(n));
  for (const window of windows) window.link.open();
  await world.clock.run(world.clock.now + QUIET, () => windows.every((window) => window.isQuiet && world.book.streams.size === count));
  for (const { had, text } of windows) had.add(text.lines.join("\n"));
  return windows;
}

/** Goes on till the server and all windows have one text. */
async function agree(windows) {
  const { clock, book } = world;
  await clock.run(clock.now + QUIET, () => windows.every((window) => window.isQuiet));
  await clock.run(clock.now + 1000);
  same(windows.map(({ text }) => text.lines), windows.map(() => book.lines));
  same(windows.map(({ area }) => area.value), windows.map(() => book.lines.join("\n")));
  same(windows.map(({ link }) => [link.isUnsaved, link.away]), windows.map(() => [book.unsaved, ""]));
}

/** The letters of a window, as a text has them. */
function lettersOf(text, place) {
  return [...text].filter((letter) => letter.charCodeAt(0) >= LETTERS[place] && letter.charCodeAt(0) < LETTERS[place] + 0x2000);
}

/** Nothing that was typed is lost or there twice, in the order in which it was typed if `isOrdered`. */
function allThere(windows, isOrdered) {
  const text = world.book.lines.join("\n");
  for (const [place, { typed }] of windows.entries()) {
    const found = lettersOf(text, place);
    same(isOrdered ? found : found.sort(), typed);
  }
}

/** Lets random things happen for a while: keys, carets, saves, and ends of the server, as `what` says how often. */
async function schedule(seed, windows, what) {
  const chance = chances(seed * 7 + 3), { clock } = world;
  const later = (act) => clock.set(act, chance(what.long));
  for (const window of windows) {
    for (let n = 0; n < what.keys; n += 1) later(() => window.type(chance(8) ? "" : "\n"));
    for (let n = 0; n < what.moves; n += 1) {
      later(() => {
        const line = chance(window.text.lines.length);
        window.goTo(line, chance(window.text.lines[line].length + 1));
      });
    }
    for (let n = 0; n < what.saves; n += 1) later(() => window.save());
  }
  for (let n = 0; n < what.ends; n += 1) {
    const begin = chance(what.long), pause = chance(what.pause);
    clock.set(() => world.kill(), begin);
    clock.set(() => world.book.isDown && world.restart(), begin + pause);
  }
  await clock.run(clock.now + what.long + what.pause + 1);
  if (world.book.isDown) world.restart();
  await agree(windows);
}

/** Tries a kind of schedule with each seed. */
async function each(act) {
  for (let seed = Number(first); seed <= Number(last); seed += 1) {
    try {
      await act(seed);
    } catch (error) {
      throw new Error(`seed ${seed}: ${error.message}`);
    }
  }
}

const LATENCIES = [0, 3, 30, 250];
const common = { long: 2500, keys: 60, moves: 0, saves: 0, ends: 1, pause: 900 };

const tests = {
  async "one window, whose server ends and begins again: what is typed stays, in its order, without a question"() {
    await each(async (seed) => {
      const windows = await opened(seed, LATENCIES[seed % 4], 1);
      windows[0].goTo(2, 3);
      await schedule(seed, windows, { ...common, ends: 1 + (seed % 3) });
      allThere(windows, true);
      same([windows[0].offered, windows[0].before().endsWith(windows[0].typed.at(-1)) || windows[0].before() === ""], [[], true]);
    });
  },

  async "the first try after a loss comes soon, also if the server was away for long before"() {
    const [window] = await opened(1, 3, 1), { clock } = world, waits = [];
    for (const pause of [20_000, 100]) {
      world.kill();
      await clock.run(clock.now + pause);
      world.restart();
      const since = clock.now;
      await clock.run(clock.now + QUIET, () => window.isQuiet);
      waits.push(clock.now - since);
    }
    same([window.link.away, waits[1] < 1000], ["", true]);
  },

  async "what is typed before the book came is asked about"() {
    world = new World(1, 30, ...BOOK);
    const window = new Window(0);
    window.link.open();
    window.type();
    await agree([window]);
    same([world.book.lines, window.offered.map(([line]) => line)], [BOOK, window.typed]);
  },

  async "the lines of the book are copied once for a key"() {
    const [window] = await opened(1, 30, 1);
    window.goTo(2, 3);
    window.type();
    await agree([window]);
    same(window.link.texts.lines === window.text.lines, true);
  },

  async "a save beside keys: an edit that arrives before the save is there once"() {
    await each(async (seed) => {
      const [window] = await opened(seed, 30, 1);
      window.goTo(2, 3);
      for (let n = 0; n < 20; n += 1) {
        window.type();
        window.save();
        await world.clock.run(world.clock.now + world.chance(80));
      }
      await agree([window]);
      allThere([window], true);
    });
  },

  async "two windows in other lines"() {
    await each(async (seed) => {
      const windows = await opened(seed, LATENCIES[seed % 4], 2);
      windows[0].goTo(2, 3);
      windows[1].goTo(6, 1);
      await schedule(seed, windows, { ...common, ends: 1 + (seed % 3) });
      allThere(windows, true);
      same(windows.map(({ offered, twice }) => [offered, twice]), [[[], 0], [[], 0]]);
    });
  },

  async "two windows in one line"() {
    await each(async (seed) => {
      const windows = await opened(seed, LATENCIES[seed % 4], 2);
      windows[0].goTo(2, 0);
      windows[1].goTo(2, 3);
      await schedule(seed, windows, { ...common, ends: 1 + (seed % 3) });
      allThere(windows, true);
      same(windows.map(({ offered }) => offered), [[], []]);
    });
  },

  async "three windows that go about"() {
    await each(async (seed) => {
      const windows = await opened(seed, LATENCIES[seed % 4], 3);
      await schedule(seed, windows, { ...common, keys: 40, moves: 15, ends: 1 + (seed % 3) });
      allThere(windows, false);
      same(windows.map(({ offered }) => offered), [[], [], []]);
    });
  },

  async "two windows that save: the file has a text that the window had, and nothing is lost"() {
    await each(async (seed) => {
      const windows = await opened(seed, LATENCIES[seed % 3], 2);
      windows[0].goTo(2, 3);
      windows[1].goTo(6, 1);
      await schedule(seed, windows, { ...common, saves: 6, ends: seed % 3 });
      const texts = [world.book.lines, ...windows.flatMap(({ offered }) => offered)].map((lines) => lines.join("\n")).join("\n");
      for (const [place, { typed }] of windows.entries()) same(typed.filter((letter) => !lettersOf(texts, place).includes(letter)), []);
      for (const { window, text } of world.savedTexts) same([text, windows.find(({ link }) => link.window === window).had.has(text)], [text, true]);
      if (seed % 3 === 0) allThere(windows, true);
    });
  },
};

await run(tests);
process.exit(0);
