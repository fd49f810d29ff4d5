// Tries windows over one book without a browser: where the caret is after edits of others and after a restart of the server, and
// what comes of a letter that the browser composes meanwhile. The arguments are the folder of the page's scripts, and the first
// and the last one of the timed pairs of edits. Each test prints a line, `ok` or `FAILED`, with its name.

import { pathToFileURL } from "node:url";

import { Book, KEY, PORT, answerOf } from "./book_server.mjs";
import { sheetRoot } from "../stub_document.mjs";
import { run, same } from "../testing.mjs";

const [folder, first, last] = process.argv.slice(2);
const from = (name) => import(pathToFileURL(`${folder}/${name}.js`));
const { Link } = await from("link/host_link");
const { mergedLines, merging } = await from("text/three_way_merge");
const { mendOf } = await from("editor/fault_fixes");
const { movedPlace, movedSelection } = await from("text/selection");
const { Server } = await from("link/server_host");
const { Sheet } = await from("editor/text_sheet");
const { Text } = await from("text/text");

const SECONDS = 300; // that a step may take, on a slow machine too
const wait = globalThis.setTimeout;
globalThis.setTimeout = (act, time) => wait(act, time / 10);
const pause = (milliseconds) => new Promise((done) => wait(done, milliseconds));

let book = null;
globalThis.fetch = async (path, options) => {
  await pause(0);
  return answerOf(book, path, options);
};

/** Waits till something comes about. */
async function until(comes) {
  const end = Date.now() + SECONDS * 1000;
  while (!comes()) {
    if (Date.now() > end) throw new Error(`waited ${SECONDS} seconds in vain for ${comes}`);
    await pause(1);
  }
}

const links = []; // of the present test

/** A window over the book. */
async function opened() {
  const text = new Text(), link = new Link(text, new Server({ pathname: `/${book.token}/`, port: PORT }, KEY));
  const sheet = new Sheet(text, sheetRoot());
  sheet.composed = (isComposing) => link.hold(isComposing);
  text.edited = () => link.soon();
  links.push(link);
  const streams = book.streams.size;
  await link.open();
  await until(() => book.streams.size > streams);
  return { text, link, sheet, area: sheet.area };
}

function close() {
  for (const link of links.splice(0)) {
    link.lose = link.join = link.send = () => {};
    link.enter({ name: "lost", away: "the test is over", retry: null });
  }
}

/** Waits till the server and the windows have one text. */
async function agree(...windows) {
  await until(() => windows.every(({ link }) => link.isSettled && !link.away && link.state.version === book.changes.length));
  for (const { text, area } of windows) same([text.lines, area.value], [book.lines, book.lines.join("\n")]);
}

/** Puts the caret of a window at a place. */
function goTo({ sheet }, line, column) {
  sheet.select({ line, column }, { line, column });
}

/** The text before the caret of a window, in its line. */
function before({ sheet, text }) {
  const { line, column } = sheet.caret();
  return text.lines[line].slice(0, column);
}

const at = (line, column) => ({ line, column });
const moved = (place, start, taken, put) => Object.values(movedPlace(place, { start, taken, put }));

const tests = {
  "a place stays with its text"() {
    same([moved(at(1, 2), 2, ["c"], []), moved(at(3, 2), 1, ["b"], ["B", "B"]), moved(at(3, 2), 3, [], ["new"])], [[1, 2], [4, 2], [4, 2]]);
    same([moved(at(1, 2), 1, ["CD"], ["aCD"]), moved(at(1, 2), 1, ["CD"], ["C"]), moved(at(1, 0), 1, ["CD"], ["C"])], [[1, 3], [1, 1], [1, 0]]);
    same([moved(at(1, 2), 1, ["CDE"], ["C", "DE"]), moved(at(2, 1), 1, ["C", "DE"], ["CDE"])], [[2, 1], [1, 2]]);
    same([moved(at(2, 1), 1, ["C", "DE", "F"], ["x", "y", "DE", "z"]), moved(at(1, 9), 1, ["C"], [])], [[3, 1], [1, 0]]);
    same([moved(at(1, 1), 1, ["CD", "E"], ["xx"]), moved(at(1, 2), 1, ["CD"], ["CD", "E"]), moved(at(2, 2), 1, ["C", "DE"], ["x", "C", "DE"])], [[1, 1], [1, 2], [3, 2]]);
  },

  "what is put in at the caret is before it, and what is put in at the end of a selection is outside"() {
    const select = (from, to) => ({ start: at(0, from), end: at(0, to), direction: "forward" });
    const edit = { start: 0, taken: ["CD"], put: ["CDE"] };
    same([movedSelection(select(2, 2), edit).end, movedSelection(select(1, 2), edit)], [at(0, 3), select(1, 2)]);
  },

  "edits of two windows in the same lines"() {
    const both = (base, own, other) => [...mergedLines(base, own, other), merging(base, own, other).isTwice];
    same([both(["CDE"], ["aCDE"], ["CDEb"]), both(["CDE"], ["CDEb"], ["CDEa"]), both(["CDE"], ["CD", "E"], ["CDEa"])], [["aCDEb", false], ["CDEab", false], ["CD", "Ea", false]]);
    same([both(["CDE"], ["CE"], ["CE"]), both(["CDE"], ["CE"], ["CDDE"]), both(["C", "D"], ["CD"], ["C", "Da"])], [["CE", false], ["CDE", false], ["CDa", false]]);
    same([both(["CDE"], ["CxE"], ["CyE"]), both(["CDE"], ["CE"], ["C"]), both(["C"], [], ["D"])], [["CyE", "CxE", true], ["C", "CE", true], ["D", true]]);
  },

  "edits of two windows at several places of a text"() {
    const base = ["X:1", "K:C", "CDEF", "GABc", "", "X:2", "K:D", "DEFG"];
    const own = ["X:1", "T:One", "K:C", "zCDzEF", "GABc", "", "X:2", "K:D", "DEFGz"], other = ["X:1", "K:C", "CxDEFx", "", "X:2", "K:D", "xDEFG", "A"];
    const { edits, isTwice } = merging(base, own, other);
    same([mergedLines(base, own, other), isTwice], [["X:1", "T:One", "K:C", "zCxDzEFx", "", "X:2", "K:D", "xDEFGz", "A"], false]);
    same(edits.every(({ taken, put }) => taken.length + put.length < 5), true); // so a caret elsewhere stays
    same(mergedLines(["", "X:2", "K:D"], ["a", "X:2b", "", "K:D"], ["", "X:c", "d:2", "K:D"]), ["a", "X:c", "d:2b", "", "K:D"]);
    same(mergedLines(["C", "D"], ["C"], ["C", "D", "E"]), ["C", "E"]);
    same(merging(["\u{1d11e}"], ["\u{1d122}"], ["\u{1f51e}"]).isTwice, true); // no character is torn: each window changed another half of it
    const long = Array.from({ length: 3000 }, (_, n) => `line ${n}`), mine = long.map((line, n) => (n % 2 ? line : `${line} C`)), theirs = [...long, "D"];
    same(mergedLines(long, mine, theirs).slice(-2), ["line 2999", "D"]);
  },

  async "after a restart of the server the caret is where it was, and what is typed follows it"() {
    book = new Book("X:1", "K:C", "CDE");
    const window = await opened(), { area, link } = window;
    goTo(window, 2, 3);
    area.focus();
    area.type("\nabc\ndef");
    await agree(window);
    book.isDown = true;
    book.cut();
    await until(() => link.away);
    area.type("g");
    book.restart("X:1", "K:C", "CDE");
    book.isDown = false;
    await until(() => !link.away);
    area.type("h");
    await agree(window);
    same([book.lines, window.sheet.caret()], [["X:1", "K:C", "CDE", "abc", "defgh"], at(4, 5)]);
    for (let n = 0; n < 2 && window.text.lines[4] !== "def"; n += 1) window.sheet.history(true); // one step or two, by the clock
    await agree(window);
    same([book.lines, window.sheet.caret()], [["X:1", "K:C", "CDE", "abc", "def"], at(4, 3)]);
  },

  async "the caret stays with its text when a window's own text is taken after all"() {
    book = new Book("X:1", "K:C", "CDE");
    const window = await opened(), { area, link } = window;
    goTo(window, 2, 3);
    link.doubted = (mine) => (link.mine = mine);
    book.isDown = true;
    book.cut();
    await until(() => link.away);
    area.type("F\nGAB");
    book.restart("% new", "X:1", "K:C", "CDE");
    book.saved = book.disk = "b";
    book.isDown = false;
    await until(() => link.mine);
    same(window.sheet.caret(), at(3, 3));
    goTo(window, 2, 2);
    link.take(link.mine);
    area.type("#");
    await agree(window);
    same([book.lines, window.sheet.caret()], [["X:1", "K:#C", "CDEF", "GAB"], at(1, 3)]);
    window.sheet.history(true);
    goTo(window, 3, 1);
    window.sheet.history(true);
    same([window.text.lines, window.sheet.caret()], [["% new", "X:1", "K:C", "CDE"], at(2, 2)]);
  },

  async "the caret is where it was when what another program wrote is undone"() {
    book = new Book("X:1", "K:C", "CDE", "FGA");
    const window = await opened();
    goTo(window, 2, 2);
    book.put(null, { start: 3, stop: 4, lines: [] }, "a writing");
    book.put(null, { start: 1, stop: 2, lines: ["K:D", "% new"] }, "a writing");
    await agree(window);
    same([book.lines, window.sheet.caret()], [["X:1", "K:D", "% new", "CDE"], at(3, 2)]);
    goTo(window, 0, 1);
    window.sheet.history(true);
    await agree(window);
    same([book.lines, window.sheet.caret()], [["X:1", "K:C", "CDE", "FGA"], at(2, 2)]);
    window.sheet.history(false);
    same(window.sheet.caret(), at(3, 2));
  },

  async "edits of others above, below and in the line of the caret"() {
    book = new Book("X:1", "K:C", "CDE", "FGA");
    const window = await opened(), { area } = window;
    goTo(window, 2, 3);
    book.put("other", { start: 0, stop: 0, lines: ["% one", "% two"] });
    await agree(window);
    same(window.sheet.caret(), at(4, 3));
    book.put("other", { start: 4, stop: 5, lines: ["ab", "CDE"] });
    await agree(window);
    same(window.sheet.caret(), at(5, 3));
    area.type("F");
    book.put("other", { start: 0, stop: 1, lines: [] });
    await agree(window);
    book.put("other", { start: 4, stop: 5, lines: ["aCDEF"] });
    await agree(window);
    area.type("G");
    await agree(window);
    same(book.lines, ["% two", "X:1", "K:C", "ab", "aCDEFG", "FGA"]);
  },

  async "timed pairs of edits in one line: each window's letters follow each other, and the line is one line"() {
    book = new Book("");
    const one = await opened(), other = await opened();
    for (let n = Number(first); n <= Number(last); n += 1) {
      one.text.become(["X:1", "K:C", "CDEFGAB"]);
      await agree(one, other);
      const right = (n % 7) + 1, left = (n >> 3) % right; // the other one types before
      goTo(one, 2, right);
      goTo(other, 2, left);
      const late = ((n * 5) % 11) - 5; // milliseconds from the other's key to this one's
      const typed = (window, words, after) => pause(after).then(() => window.area.type(words));
      await Promise.all([typed(other, "x", Math.max(0, -late)), typed(one, "1", Math.max(0, late))]);
      one.area.type("2");
      await pause(n % 3);
      other.area.type("y");
      one.area.type("3");
      await agree(one, other);
      const [start, middle, end] = ["CDEFGAB".slice(0, left), "CDEFGAB".slice(left, right), "CDEFGAB".slice(right)];
      same([n, before(other), before(one), book.lines], [n, `${start}xy`, `${start}xy${middle}123`, ["X:1", "K:C", `${start}xy${middle}123${end}`]]);
    }
  },

  async "timed pairs of edits at one place: nothing is lost or there twice"() {
    book = new Book("");
    const one = await opened(), other = await opened();
    for (let n = Number(first); n <= Number(last); n += 4) {
      one.text.become(["X:1", "K:C", "CDE"]);
      await agree(one, other);
      for (const window of [one, other]) goTo(window, 2, (n >> 2) % 4);
      other.area.type("x");
      await pause((n >> 2) % 5);
      one.area.type("1");
      await agree(one, other);
      same(book.lines.map((line) => [...line].sort().join("")), ["1:X", ":CK", "1CDEx"]);
    }
  },

  async "the caret stays with its text when a click mends a line"() {
    book = new Book("X:1", "K:C", 'C "Em DEF|G', "");
    const window = await opened(), { sheet, text } = window;
    goTo(window, 2, 7);
    sheet.replace({ start: 2, taken: ['C "Em DEF|G'], put: ['C "Em" DEF|G'] });
    same([sheet.caret(), before(window)], [at(2, 8), 'C "Em" D']);
    goTo(window, 2, 2);
    sheet.replace({ start: 2, taken: ['C "Em" DEF|G'], put: ['C "Em" DE|G'] });
    same(sheet.caret(), at(2, 2));
    sheet.replace({ start: 1, taken: [], put: ["T:a"] });
    same([sheet.caret(), text.lines[3]], [at(3, 2), 'C "Em" DE|G']);
    sheet.history(true);
    same(text.lines[1], "K:C");
    await agree(window);
  },

  async "the caret goes after what a click writes at its place, as if it were typed"() {
    for (const [line, name, sign, caret, column, mended] of [
      ["C F# D", "BadByte", "#", 3, 4, "C ^F D"],
      ["C F# D", "BadByte", "#", 4, 4, "C ^F D"],
      ["C F# D", "BadByte", "#", 2, 4, "C ^F D"],
      ["C F# D", "BadByte", "#", 1, 1, "C ^F D"],
      ["C F# D", "BadByte", "#", 5, 5, "C ^F D"],
      ["C #F D", "BadByte", "#", 2, 4, "C ^F D"],
      ['C "Em DEF', "Unclosed", '"', 2, 6, 'C "Em" DEF'],
      ["C2  -|C", "LooseTie", "-", 4, 3, "C2-|C"],
      ["C é|", "BadByte", "é", 3, 2, "C |"],
    ]) {
      book = new Book("X:1", "K:C", line, "");
      const window = await opened(), { sheet, text } = window, start = line.indexOf(sign);
      goTo(window, 2, caret);
      const { taken, put, columns } = mendOf([2, start, start + 1, name], text.lines, () => [1]);
      sheet.replace({ start: 2, taken, put }, columns);
      same([line, text.lines[2], sheet.caret()], [line, mended, at(2, column)]);
      await agree(window);
      close();
    }
  },

  async "edits of two windows that touch keep both lines, the other's first"() {
    book = new Book("X:1", "K:C", "CDE");
    const one = await opened(), other = await opened();
    const doubles = [];
    for (const { link } of [one, other]) link.twice = () => doubles.push(link);
    for (const [window, words] of [[one, "ab"], [other, "cd"]]) {
      window.sheet.select(at(2, 1), at(2, 2));
      window.area.type(words);
    }
    await agree(one, other);
    same([book.lines.slice(2).sort(), doubles.length], [["CabE", "CcdE"], 1]);
  },

  async "the area is left alone while the browser composes a letter"() {
    book = new Book("X:1", "K:C", "CDE", "FGA");
    const window = await opened(), other = await opened(), { area, link } = window;
    goTo(window, 2, 3);
    area.tell("compositionstart");
    area.type("e");
    await until(() => book.lines[2] === "CDEe");
    const { sets } = area;
    goTo(other, 0, 0);
    other.area.type("% new\n");
    await agree(other);
    await until(() => link.waiting.length);
    area.type("é", 1);
    goTo(other, 4, 3);
    other.area.type("B");
    await agree(other);
    await until(() => link.waiting.length === 2);
    same([area.sets, area.value], [sets, "X:1\nK:C\nCDEé\nFGA"]);
    area.tell("compositionend");
    await agree(window, other);
    same([book.lines, before(window)], [["% new", "X:1", "K:C", "CDEé", "FGAB"], "CDEé"]);
  },

  async "a whole book waits for the letter too, and so does a save"() {
    book = new Book("X:1", "K:C", "CDE");
    const window = await opened(), { area, link } = window;
    goTo(window, 2, 3);
    area.tell("compositionstart");
    area.type("e");
    await agree(window);
    book.restart("X:1", "K:C", "CDE");
    book.saved = book.disk = "b";
    await until(() => link.away);
    await until(() => book.asked.at(-1).endsWith("/book"));
    let isSaved = false;
    const { sets } = area, save = link.file("save").then(() => (isSaved = true));
    area.type("é", 1);
    await pause(50);
    same([area.sets, area.value, isSaved, link.isUnsaved], [sets, "X:1\nK:C\nCDEé", false, true]);
    area.tell("compositionend");
    await save;
    await agree(window);
  },
};

await run(tests, close);
process.exit(0);
