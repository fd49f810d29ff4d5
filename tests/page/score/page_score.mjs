// Tries the score of the page without a browser: the folder that has its scripts is the argument. Each test prints a line,
// `ok` or `FAILED`, with its name.

import { pathToFileURL } from "node:url";

import { run, same } from "../testing.mjs";

/** An element, as much of it as the scripts use. */
class Element {
  constructor(tag) {
    this.tag = tag;
    this.attributes = {};
    this.children = [];
    this.dataset = {};
    this.heard = {};
    const names = (this.names = new Set());
    this.classList = {
      add: (name) => names.add(name),
      remove: (name) => names.delete(name),
      toggle: (name, isOn) => (isOn ? names.add(name) : names.delete(name)),
    };
    this.style = {};
    this.clientWidth = 608;
    this.scrollTop = 0;
  }

  get parentElement() {
    return this.parent ?? null;
  }

  setAttribute(name, value) {
    this.attributes[name] = value;
  }

  append(...children) {
    this.children = this.children.filter((child) => !children.includes(child)).concat(children);
    for (const child of children) if (child instanceof Element) child.parent = this;
  }

  remove() {
    if (this.parent) this.parent.children = this.parent.children.filter((child) => child !== this);
  }

  replaceChildren(...children) {
    this.children = children;
  }

  addEventListener(name, act) {
    this.heard[name] = act;
  }

  getBoundingClientRect() {
    return { top: 0, bottom: 10, left: 0, right: 10 };
  }
}

const made = (tag) => new Element(tag);
const isLine = ({ className }) => className === "score-line";
globalThis.document = { createElementNS: (_, tag) => made(tag), createElement: made, body: made("body"), addEventListener() {}, hidden: false };
globalThis.ResizeObserver = class {
  observe() {}
};
globalThis.requestAnimationFrame = (act) => setTimeout(act);
const wait = globalThis.setTimeout;
globalThis.setTimeout = (act, time) => wait(act, time / 20);

const folder = process.argv[2];
const { Score, tuneOf } = await import(pathToFileURL(`${folder}/score/score_view.js`));
const { laidOut } = await import(pathToFileURL(`${folder}/score/score_elements.js`));

const place = (row, column, kind = "note") => ["place", { row, column, kind, x: "1", y: "2", width: "3", height: "4" }];
const image = (...inside) => ["svg", { width: "9", height: "9" }, ...inside];
const rest = (time = 1000) => new Promise((done) => setTimeout(done, time));

/** A score whose questions are kept in `asked`, each with a function that answers it. */
function scored() {
  const asked = [];
  const score = new Score(made("div"), (question) => new Promise((done, fail) => asked.push({ question, done, fail })));
  return { score, asked };
}

const tests = {
  "only known elements and attributes are made"() {
    const evil = { onload: "x", style: "x", href: "http://x", "xlink:href": "#x", x: "1", class: "score-fill" };
    const inside = [["script", {}, "x"], ["g", evil, "no <b>", ["a", {}, "x"], ["use", { href: "#score-a" }], ["svg", {}]]];
    const { pages } = laidOut([["svg", { onload: "x", width: "9" }, ...inside], ["img", {}]]);
    same([pages.length, pages[0].element.children, pages[0].element.attributes], [1, [], { width: "9" }]);
    pages[0].fill();
    pages[0].fill();
    const [group, ...others] = pages[0].element.children;
    same([others.length, group.attributes, group.children[0], group.children.length], [0, { x: "1", class: "score-fill" }, "no <b>", 2]);
    same(group.children[1].attributes, { href: "#score-a" });
  },

  async "pages that are seen are filled first"() {
    const { score, asked } = scored();
    score.see({ first: 0, lines: ["X:1", "K:C", "CDE"], header: [] });
    await rest();
    const beyond = () => score.view.children.filter((child) => !isLine(child)).map(({ children }) => children.length);
    const far = { top: 900, bottom: 999 };
    const make = document.createElementNS;
    let pages = 0;
    document.createElementNS = (space, tag) => {
      const element = make(space, tag);
      if (tag === "svg" && (pages += 1) > 1) element.getBoundingClientRect = () => far;
      return element;
    };
    asked[0].done({ images: [image(place(2, 0)), image(place(2, 1)), image(place(2, 2))] });
    await Promise.resolve();
    await new Promise((done) => setImmediate(done));
    document.createElementNS = make;
    same([beyond(), score.notes.length], [[1, 0, 0], 3]);
    score.mark([{ line: 2, column: 2 }], true);
    same(beyond(), [1, 0, 1]);
    await rest(5000);
    same(beyond(), [1, 1, 1]);
  },

  async "notes have places in the book, and move with their tune"() {
    const { score, asked } = scored();
    const lines = ["X:1", "K:C", "^C,2[CE]/2{g}z2"];
    score.see({ first: 5, lines, header: ["L:1/8"] });
    await rest();
    same(asked[0].question, { header: ["L:1/8"], tune: lines, width: 600, transpose: 0 });
    asked[0].done({ images: [image(place(2, 0), ["g", {}, place(2, 4)], place(2, 11, "grace"), place(2, 13, "rest"))] });
    await rest();
    const told = () => score.notes.map(({ line, column, length, kind }) => [line, column, length, kind]);
    same(told(), [[7, 0, 4, "note"], [7, 4, 6, "note"], [7, 11, 1, "grace"], [7, 13, 2, "rest"]]);
    score.see({ first: 9, lines: [...lines], header: ["L:1/8"] });
    await rest();
    same([told()[0][0], asked.length], [11, 1]);
    score.mark([{ line: 11, column: 6 }, { line: 7, column: 0 }, { line: 11, column: 10 }, { line: 11, column: 13 }], true);
    const lit = () => score.notes.map(({ element }) => element.names.has("score-lit"));
    same([lit(), score.view.children.some(isLine)], [[false, true, false, true], true]);
    score.mark([{ line: 11, column: 0 }]);
    same([lit(), score.view.children.some(isLine)], [[true, false, false, false], false]);
    score.clear();
    same(lit(), [false, false, false, false]);
    score.caret({ line: 11, column: 3 });
    await rest();
    same(score.notes.map(({ element }) => element.names.has("score-here")), [true, false, false, false]);
  },

  async "an answer for an older text is not shown"() {
    const { score, asked } = scored();
    score.see({ first: 0, lines: ["X:1", "K:C", "C"], header: [] });
    await rest();
    score.see({ first: 0, lines: ["X:1", "K:C", "CD"], header: [] });
    await rest();
    same(asked.length, 1);
    asked[0].done({ images: [image(place(2, 0))] });
    await rest();
    same([score.notes.length, asked.length], [0, 2]);
    asked[1].done({ images: [image(place(2, 0), place(2, 1))] });
    await rest();
    same(score.notes.length, 2);
    score.see(null);
    await rest();
    same([score.notes.length, asked.length], [0, 2]);
  },

  async "a drawing is busy from an edit to the drawing of the new text"() {
    const { score, asked } = scored(), text = (body) => ({ first: 0, lines: ["X:1", "K:C", body], header: [] });
    const isBusy = () => score.view.attributes["aria-busy"];
    score.see(text("C"));
    await rest();
    asked[0].done({ images: [image(place(2, 0))] });
    await rest();
    same(isBusy(), "false");
    score.see(text("D"));
    same(isBusy(), "true");
    await rest();
    asked[1].fail(new Error("away"));
    await rest();
    same([isBusy(), score.notes.length], ["true", 1]);
    score.see(text("D"));
    await rest();
    asked[2].done({ images: [image(place(2, 0))] });
    await rest();
    same(isBusy(), "false");
    score.see(text("E"));
    score.see(null);
    await rest();
    same([isBusy(), asked.length], ["false", 3]);
  },

  async "a drawn tune with faults is doubted, and no other one"() {
    const { score, asked } = scored();
    let faults = 1, isDoubtful = false;
    score.doubted = (is) => (isDoubtful = is);
    score.hasFaults = ({ first }) => first === 5 && faults > 0;
    score.see({ first: 5, lines: ["X:1", "K:C", "C"], header: [] });
    score.doubt();
    await rest();
    same(isDoubtful, false);
    asked[0].done({ images: [image(place(2, 0))] });
    await rest();
    same(isDoubtful, true);
    score.doubt();
    same(isDoubtful, true);
    faults = 0;
    score.doubt();
    same(isDoubtful, false);
    faults = 1;
    score.doubt();
    score.see({ first: 9, lines: ["X:2", "K:C", "C"], header: [] });
    score.doubt();
    same(isDoubtful, true);
    await rest();
    asked[1].done({ images: [image(place(2, 0))] });
    await rest();
    same(isDoubtful, false);
    score.see({ first: 5, lines: ["X:1", "K:C"], header: [] });
    await rest();
    asked[2].done({ why: "none" });
    await rest();
    same([isDoubtful, score.view.children.map(({ className }) => className).filter(Boolean)], [false, ["why"]]);
  },

  async "a page without a tune is printed as it is"() {
    const { score, asked } = scored();
    let prints = 0;
    globalThis.window = { print: () => (prints += 1) };
    score.see({ first: 0, lines: ["X:1", "K:C", "C"], header: [] });
    await rest();
    asked[0].done({ images: [image(place(2, 0))] });
    await rest();
    score.see(null);
    await score.print();
    same([prints, asked.length], [1, 1]);
  },

  "the lines of a tune and of the file header"() {
    const lines = ["% words", " \t", "%%flatbeams 1", "M:6/8", " ", "free text", "X:1", "K:C", "C", "", "more", "X:2", "K:D", "X:3"];
    const rows = [[6, 1, "", true], [11, 2, "", true], [13, 3, "", true]];
    const header = ["%%flatbeams 1", "M:6/8"];
    same(tuneOf(lines, rows, 0), { first: 6, lines: ["X:1", "K:C", "C"], header });
    same(tuneOf(lines, rows, 1), { first: 11, lines: ["X:2", "K:D"], header });
    same(tuneOf(lines, rows, 2), { first: 13, lines: ["X:3"], header });
    same(tuneOf(lines, rows, -1), null);
    same(tuneOf(["X:1", "K:C"], [[0, 1, "", true]], 0), { first: 0, lines: ["X:1", "K:C"], header: [] });
    same(tuneOf(["X:1", ...Array(9000).fill("C")], [[0, 1, "", true]], 0).lines.length, 5000);
  },

  async "a server that does not answer is asked again"() {
    const { score, asked } = scored();
    const tune = () => ({ first: 0, lines: ["X:1", "K:C", "C"], header: [] });
    score.see(tune());
    await rest();
    asked[0].fail(new Error("away"));
    await rest();
    score.see(tune());
    await rest();
    score.see(tune()); // as each change of the state does
    await rest();
    same(asked.length, 2);
    asked[1].done({ why: "none" });
    await rest();
    same([asked.length, score.view.children[0].textContent], [2, "none"]);
    score.see(tune());
    await rest();
    same([asked.length, score.view.children[0].textContent], [2, "none"]);
  },
};

await run(tests);
process.exit(0);
