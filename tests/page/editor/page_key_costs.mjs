// Tries what the page does for a key, without a browser: no more in a long book than in a short one, and nothing twice. The folder of the
// page's scripts is the argument. Each test prints a line, `ok` or `FAILED`, with its name.

import { pathToFileURL } from "node:url";

import { sheetRoot } from "../stub_document.mjs";
import { run, same } from "../testing.mjs";

const from = (name) => import(pathToFileURL(`${process.argv[2]}/${name}.js`));
const { Colours } = await from("editor/token_colours");
const { show, write } = await from("base/elements");
const { Findings } = await from("link/findings");
const { onceAFrame } = await from("base/once_a_frame");
const { Layer, rowOf } = await from("editor/text_layer");
const { replaced } = await from("text/line_edits");
const { Remarks } = await from("editor/fault_remarks");
const { Roll } = await from("music/piano_roll");
const { drawRoll } = await from("music/piano_roll_picture");
const { KINDS, Seen } = await from("link/tokens_and_plays");
const { Sheet } = await from("editor/text_sheet");
const { ShownTune } = await from("music/shown_tune");
const { Text } = await from("text/text");
const { Tunes } = await from("tunes/tune_list");

const MEASURES = ["scrollTop", "scrollLeft", "scrollWidth", "clientHeight", "clientWidth", "offsetWidth", "offsetHeight"];
const BOOK = Array.from({ length: 5000 }, (_, n) => [`X:${n + 1}`, "K:C", "CDE", ""]).flat();
const ROWS = Array.from({ length: 5000 }, (_, n) => [4 * n, n + 1, `Tune ${n + 1}`, true]);
const NOTE = KINDS.indexOf("Note"), BAR = KINDS.indexOf("BarLine");

/** @type {(() => void)[]} */
let frames = [];
globalThis.requestAnimationFrame = (act) => frames.push(act);

/** Lets the browser draw a frame. */
function draw() {
  for (const act of frames.splice(0)) act();
}

/** Counts what is asked of an element that makes the browser lay out the page. */
function counted(element) {
  const count = { measures: 0 };
  for (const name of MEASURES) {
    let value = element[name];
    const get = () => {
      count.measures += 1;
      return value;
    };
    Object.defineProperty(element, name, { get, set: (other) => (value = other) });
  }
  return count;
}

/** A text box over a long book, with the caret in a line in its middle. */
function sheetOf() {
  const text = new Text(), root = sheetRoot();
  text.open(BOOK);
  const sheet = new Sheet(text, root);
  sheet.go(10002, 3);
  return { text, sheet, area: root.querySelector("textarea") };
}

/** A list of tunes over rows that count how often they are written. */
function listOf() {
  const count = { writes: 0, rows: 0 }, part = () => ({ textContent: "" });
  document.createElement = () => {
    count.rows += 1;
    const row = { children: [part(), part()], dataset: {}, style: { setProperty() {} }, append() {}, setAttribute() {}, remove() {} };
    return Object.defineProperty(row, "className", { set: () => (count.writes += 1) });
  };
  const space = { style: {}, insertBefore: (row) => row };
  const list = { scrollTop: 0, clientHeight: 300, querySelector: () => space, addEventListener() {}, setAttribute() {}, removeAttribute() {} };
  globalThis.getComputedStyle = () => ({ getPropertyValue: () => "30px", lineHeight: "20px" });
  return { list, count };
}

/** Counts the calls of a function of an object. */
function calls(object, name) {
  const count = { calls: 0 }, act = object[name];
  object[name] = function (...words) {
    count.calls += 1;
    return act.apply(this, words);
  };
  return count;
}

/** A layer over an element that counts the rows that come and go. */
function layerOf() {
  const count = { made: 0, removed: 0 }, children = [], layer = new Layer({ area: { before() {} }, first: 0, topInArea: (line) => 20 * line }, "rows");
  const insertBefore = (row, next) => children.splice(next ? children.indexOf(next) : children.length, 0, row);
  layer.element = { style: {}, children, insertBefore };
  const make = (key) => {
    count.made += 1;
    const remove = () => {
      count.removed += 1;
      children.splice(children.indexOf(row), 1);
    };
    const row = { childNodes: [textNode(String(key))], remove };
    return row;
  };
  const draw = (keys) => {
    layer.draw(0, keys, (n) => make(keys[n]));
    same(children.map(({ childNodes }) => childNodes[0].nodeValue).join(" "), keys.join(" "));
  };
  return { draw, count };
}

/** An element that has other nodes in it, or words. */
class Part {
  constructor() {
    Object.assign(this, { nodeType: 1, className: "", textContent: "", style: {}, childNodes: [] });
  }

  get children() {
    return this.childNodes;
  }

  append(...parts) {
    this.childNodes.push(...parts.map((part) => (typeof part === "string" ? textNode(part) : part)));
  }

  removeChild(node) {
    this.childNodes = this.childNodes.filter((one) => one !== node);
  }

  insertBefore(node, next) {
    this.childNodes.splice(next ? this.childNodes.indexOf(next) : this.childNodes.length, 0, node);
  }
}

/** A text in an element. */
function textNode(words) {
  return { nodeType: 3, nodeValue: words, get textContent() { return this.nodeValue; } };
}

/** Draws a line as the only row of a layer; the nodes of the row. */
function rowsOfOneLine() {
  document.createElement = () => new Part();
  const layer = new Layer({ area: { before() {} }, first: 0, topInArea: (line) => 20 * line }, "rows");
  return (line, parts) => {
    layer.draw(0, [`${parts} ${line}`], () => rowOf(line, parts));
    same(layer.element.children.length, 1);
    return [...layer.element.children[0].childNodes];
  };
}

/** A roll of four octaves over an element that counts what it is asked. */
function rollOf() {
  const pen = new Proxy({}, { get: () => () => {}, set: () => true }), scroller = { scrollTop: 0, scrollLeft: 0, clientWidth: 600, clientHeight: 400 };
  const grid = { bars: [{ tick: 0, number: 1, offset: 0 }], placeAt: () => 0, beatsOf: () => [0] };
  const roll = { scroller, grid, score: { notes: [], end: 1920 }, canvas: { style: {}, getContext: () => pen }, low: 36, high: 84, lowest: 36, highest: 84 };
  return Object.assign(roll, { row: 8, tick: null, loop: null, quarter: 44, down: (key) => 8 * (84 - key), along: (tick) => tick, tickAt: (x) => x });
}

const tests = {
  "a key in the text asks the browser for no measures, before the next frame"() {
    const { text, sheet, area } = sheetOf(), asked = counted(sheet.scroller);
    area.type("F");
    same([text.lines[10002], sheet.caret(), asked.measures], ["CDEF", { line: 10002, column: 4 }, 0]);
  },

  "what is typed can be sent before the page looks at it, and before it is drawn"() {
    const { text, sheet, area } = sheetOf(), acts = [];
    text.pended = () => acts.push(text.take().lines);
    text.edited = () => acts.push("edited");
    sheet.layers.push({ draw: () => acts.push("drawn") });
    area.type("F");
    same(acts, [["CDEF"], "edited", "drawn"]);
  },

  "a list of tunes that is shown again asks for no measures, and writes only rows that changed"() {
    const { list, count } = listOf(), tunes = new Tunes(list);
    tunes.show(ROWS, 2500);
    const asked = counted(list), { writes, rows } = count;
    tunes.show(ROWS, 2500);
    tunes.show([...ROWS], 2500);
    same([asked.measures, count.writes - writes, count.rows - rows, tunes.drawn.size > 10], [0, 0, 0, true]);
    tunes.light([ROWS[2500][1]], []);
    tunes.light([ROWS[2500][1]], []);
    draw();
    same([count.writes - writes, count.rows - rows], [1, 0]);
    clearTimeout(tunes.timer);
  },

  "a line that becomes another one copies a book once"() {
    const book = [...BOOK], copies = calls(book, "slice"), now = replaced(book, 10002, 10003, ["CDEF"]);
    same([copies.calls, now.length, now[10001], now[10002], now[10003], book[10002]], [1, 20000, "K:C", "CDEF", "", "CDE"]);
    same([replaced(book, 10002, 10003, ["CD", "E"]).length, replaced(book, 0, 20000, []).length], [20001, 0]);
  },

  "a new line makes no other rows of a layer again"() {
    const { draw, count } = layerOf(), keys = Array.from({ length: 130 }, (_, n) => (n % 5 ? n : "blank"));
    draw(keys);
    same(count, { made: 130, removed: 0 });
    draw([...keys.slice(0, 61), "new", "line", ...keys.slice(62, 129)]);
    same(count, { made: 132, removed: 2 });
    draw(keys);
    same(count, { made: 134, removed: 4 });
  },

  "a layer has a row for each of its keys, in their order"() {
    const { draw } = layerOf();
    let seed = 1;
    const drawn = (below) => ((seed = (seed * 48271) % 2147483647) >> 8) % below;
    for (let n = 0; n < 500; n += 1) draw(Array.from({ length: drawn(9) }, () => drawn(5)));
  },

  "marks of faults are drawn again only if they are others"() {
    const { text, sheet, area } = sheetOf(), fault = [10002, 0, 1, "BadByte"], made = calls(sheet.marks, "replaceChildren");
    sheet.faultsOf = () => [[...fault]];
    sheet.drawFaults();
    sheet.drawFaults();
    same(made.calls, 1);
    area.type("F");
    same([text.lines[10002], made.calls], ["CDEF", 2]);
    fault[1] = 1;
    sheet.drawFaults();
    sheet.faultsOf = () => [];
    sheet.drawFaults();
    sheet.drawFaults();
    same(made.calls, 4);
  },

  "the same faults of the same text are drawn once"() {
    const { sheet, area } = sheetOf(), faults = [[10002, 0, 1, "BadByte"]], made = calls(sheet, "drawMarks");
    sheet.faultsOf = () => faults;
    for (let n = 0; n < 3; n += 1) sheet.drawFaults();
    same(made.calls, 1);
    area.type("F");
    sheet.drawFaults();
    same(made.calls, 2);
    sheet.load(sheet.first - 1, sheet.last);
    same(made.calls, 3);
  },

  "faults and hints of lines are one list until they are others"() {
    const book = { faults: [[2, 0, 1, "BadByte"]], hints: [[1, 0, 1, "Overlay", "Words."]], tunes: [] }, text = new Text();
    const findings = new Findings(text, { sent: null }, book);
    findings.renew();
    const found = findings.remarksIn(0, 9);
    findings.renew();
    same([found, findings.remarksIn(0, 9) === found, findings.remarksIn(2, 9)], [[book.hints[0], book.faults[0]], true, book.faults]);
    book.hints = [];
    findings.renew();
    same(findings.remarksIn(0, 9), book.faults);
  },

  async "the file of a tune is read some time after a key, and once for keys that follow soon"() {
    const { setTimeout: set, clearTimeout: clear } = globalThis, asked = [], acts = new Map();
    globalThis.setTimeout = (act) => (acts.set(acts.size + 1, act), acts.size);
    globalThis.clearTimeout = (number) => acts.delete(number);
    const shown = new ShownTune({ bytes: async (name) => void asked.push(name) }, { away: "" }, null);
    const pass = async () => Promise.all([...acts.values()].map((act) => act()));
    await shown.load(1);
    for (const number of [1, 1, 2]) shown.reload([number]);
    same(asked, ["midi/1"]);
    await pass();
    same(asked, ["midi/1", "midi/1"]);
    shown.reload([1]);
    await shown.load(2);
    await pass();
    Object.assign(globalThis, { setTimeout: set, clearTimeout: clear });
    same(asked, ["midi/1", "midi/1", "midi/2"]);
  },

  async "a tune whose file cannot be read does not show the notes of another one"() {
    const link = { away: "" }, shown = new ShownTune({ bytes: async () => null }, link, null), notes = {};
    await shown.load(1);
    shown.score = notes;
    link.away = "it does not answer";
    await shown.load(1);
    same([shown.score === notes, shown.owner], [true, 1]);
    let came = 0;
    shown.came = () => (came += 1);
    await shown.load(2);
    same([shown.score, shown.owner, came], [null, null, 1]);
  },

  "a mark that stays has the fault as it is now"() {
    const { sheet } = sheetOf(), mark = { fault: null }, faults = [[10002, 0, 1, "BadByte"], [10002, 0, 1, "LostSharp"]];
    sheet.faultsOf = () => [faults[0]];
    sheet.drawFaults();
    sheet.marks.querySelectorAll = () => [mark];
    sheet.faultsOf = () => [faults[1]];
    sheet.drawFaults();
    same(mark.fault, faults[1]);
  },

  "entries of the list of faults are drawn again only if they are others"() {
    const list = { children: [], replaceChildren: (...items) => (list.children = items) }, made = calls(list, "replaceChildren");
    const remarks = new Remarks(list, null, () => {}), lines = ["X:1", "K:C", "C#D#"];
    document.createElement = () => ({ append() {}, addEventListener() {}, classList: { toggle() {} } });
    remarks.show([], lines, 2);
    same(made.calls, 0);
    const faults = () => [[2, 1, 2, "BadByte"], [2, 3, 4, "LostSharp"]];
    remarks.show(faults(), lines, 2);
    const again = faults();
    remarks.show(again, lines, 2);
    same([made.calls, list.children.length, list.children[1].fault === again[1]], [1, 2, true]);
    remarks.sentences = { BadByte: ["This sign has no meaning."] };
    remarks.show(again, lines, 2);
    remarks.mendOf = () => ({ words: "Delete it" });
    remarks.show(again, lines, 2);
    remarks.show(again, ["X:1", "K:C", "C&D#"], 2);
    same(made.calls, 4);
  },

  "words are written into an element if they are others"() {
    const count = { writes: 0 }, element = { get textContent() { return this.words; }, set textContent(words) { count.writes += 1; this.words = words; } };
    for (const words of ["1 fault", "1 fault", "2 faults", ""]) write(element, words);
    same([count.writes, element.words], [3, ""]);
  },

  "an element is shown or hidden if it is not"() {
    const count = { sets: 0 }, element = { get hidden() { return this.isHidden; }, set hidden(isHidden) { count.sets += 1; this.isHidden = isHidden; }, isHidden: false };
    for (const isShown of [true, false, false, true]) show(element, isShown);
    same([count.sets, element.hidden], [2, false]);
  },

  "a roll draws again if something in it is another"() {
    const note = { key: 60 }, count = { draws: 0 }, roll = Object.create(Roll.prototype);
    Object.assign(roll, { pointedAt: new Set(), silent: new Set(), loop: null, soon: () => (count.draws += 1) });
    for (const notes of [[], [note], [note], [{ ...note }], []]) roll.point(new Set(notes));
    same([count.draws, roll.pointedAt.size], [3, 0]);
    for (const voices of [[], [1], [1], [0], [0, 1]]) roll.hush(new Set(voices));
    same([count.draws, [...roll.silent]], [6, [0, 1]]);
    for (const range of [null, [0, 480], [0, 480], [0, 960], null]) roll.enclose(range);
    same([count.draws, roll.loop], [9, null]);
  },

  "a drawing of the roll asks once for each colour and for its place"() {
    const roll = rollOf(), asked = { colours: 0, places: 0 };
    globalThis.devicePixelRatio = 1;
    globalThis.getComputedStyle = () => ({ getPropertyValue: () => ((asked.colours += 1), "#123456") });
    roll.colours = { of: () => "#123456" };
    Object.defineProperty(roll.scroller, "scrollTop", { get: () => ((asked.places += 1), 0) });
    drawRoll(roll);
    same([asked.colours <= 8, asked.places], [true, 1]);
  },

  "the tune of a number is looked for once while the tunes are the same"() {
    const findings = new Findings({ lines: BOOK, pending: null }, { sent: null }, { faults: [], hints: [], tunes: [...ROWS] });
    let looks = 0;
    findings.book.tunes.findIndex = function (...words) {
      looks += 1;
      return Array.prototype.findIndex.apply(this, words);
    };
    findings.renew();
    same([findings.ownerOf(2501), findings.ownerOf(2501), looks], [2500, 2500, 1]);
    findings.renew();
    same([findings.ownerOf(2501), looks], [2500, 1]);
    findings.book.tunes = ROWS.slice(1);
    findings.renew();
    same([findings.ownerOf(2501), findings.ownerOf(1), findings.ownerOf(null)], [2499, -1, -1]);
  },

  "a line whose tokens come again keeps its row"() {
    const { text, sheet } = sheetOf(), link = { situation: { name: "following" }, known: { run: "a", version: 1 }, texts: { lines: BOOK } };
    const seen = new Seen(text, link, { ask: async () => ({}) });
    const colours = new Colours(sheet, seen), drawn = [];
    colours.layer.draw = (_, keys) => drawn.push(keys);
    const view = (to, kind) => ({ from: 10000, to: 10004, tokens: [[], [], [0, 1, NOTE, 0, 1, to, kind, 0], []], tune: null, play: null });
    for (const [to, kind] of [[3, NOTE], [3, NOTE], [2, NOTE], [2, BAR]]) {
      seen.learn(view(to, kind), 1);
      colours.show(10000, 10004);
    }
    clearTimeout(seen.timer);
    const stays = [2, 4, 6].map((n) => drawn[n + 1].map((row, at) => row === drawn[1][at]));
    same(stays, [[true, true, true, true], [true, true, true, true], [true, true, false, true]]); // notes have no colour
  },

  "a row that becomes another one keeps the nodes that show the same"() {
    const drawn = rowsOfOneLine(), first = drawn("CDE|", [[3, 4, "barline"]]), [text, bar] = first;
    same([drawn("CDEF|", [[4, 5, "barline"]]).map((node, n) => node === first[n]), text.nodeValue, bar.textContent], [[true, true], "CDEF", "|"]);
    const next = drawn("|CDEF|", [[0, 1, "barline"], [5, 6, "barline"]]);
    same([next.map((node) => first.includes(node)), next.map(({ textContent }) => textContent)], [[false, true, true], ["|", "CDEF", "|"]]);
    same([drawn("", []), drawn("C", []).length], [[], 1]);
  },

  "what is to be done in a frame is done once, and again in a later one"() {
    let count = 0;
    const soon = onceAFrame(() => (count += 1));
    soon();
    soon();
    draw();
    draw();
    same(count, 1);
    soon();
    draw();
    same(count, 2);
  },
};

await run(tests);
