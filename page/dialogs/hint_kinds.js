// The kinds of hints of the book: how many each has, and which are hidden, in this book or in all.

import { button, find } from "../base/elements.js";
import { counted } from "../base/plural.js";
import { keptKinds, keepKinds } from "./hidden_kinds.js";

/** @typedef {import("../link/finding_rows.js").FaultRow} FaultRow
 * A kind, its first hint if the book has one, and how many it has.
 * @typedef {{ name: string, first: FaultRow | undefined, count: number }} Kind */

const CHOICES = [["shown", "Show"], ["book", "Hide in this book"], ["all", "Hide in all books"]];

export class HintKinds {
  /** `go` goes to a place; `changed` is called when other kinds are hidden.
   * @param {import("../link/findings.js").Findings} findings
   * @param {HTMLDialogElement} dialog
   * @param {(line: number, column: number) => void} go
   * @param {() => void} changed */
  constructor(findings, dialog, go, changed) {
    this.findings = findings;
    this.dialog = dialog;
    this.go = go;
    this.changed = changed;
    this.id = ""; // of the book
    this.kept = { book: new Set(), all: new Set() };
    find("hinted").addEventListener("click", () => this.ask());
    button("hints-close").addEventListener("click", () => dialog.close());
  }

  /** Reads which kinds are hidden in a book.
   * @type {(id: string) => void} */
  open(id) {
    this.id = id;
    this.kept = keptKinds(id);
    this.apply();
  }

  apply() {
    this.findings.hiddenKinds = new Set([...this.kept.book, ...this.kept.all]);
  }

  /** Shows the kinds, those with the most hints first. */
  ask() {
    find("hints-rows").replaceChildren(...this.kinds().map((kind) => this.row(kind)));
    this.dialog.showModal();
  }

  /** @returns {Kind[]} */
  kinds() {
    const { findings, kept } = this, hidden = [...kept.book, ...kept.all];
    const all = findings.placed(findings.book.hints);
    /** @type {Map<string, Kind>} */
    const kinds = new Map(hidden.map((name) => [name, { name, first: undefined, count: 0 }]));
    for (const hint of all) {
      const kind = kinds.get(hint[3]) ?? { name: hint[3], first: undefined, count: 0 };
      kinds.set(hint[3], { name: kind.name, first: kind.first ?? hint, count: kind.count + 1 });
    }
    return [...kinds.values()].sort((a, b) => b.count - a.count);
  }

  /** @type {(kind: Kind) => HTMLElement} */
  row({ name, first, count }) {
    const row = document.createElement("li"), words = document.createElement("button"), choice = document.createElement("select");
    words.type = "button";
    words.disabled = !first;
    words.append(Object.assign(document.createElement("b"), { textContent: `${name}: ${counted(count, "hint")}` }));
    if (first?.[4]) words.append(Object.assign(document.createElement("small"), { textContent: `Line ${first[0] + 1}: ${first[4].replaceAll("`", "")}` }));
    words.addEventListener("click", () => {
      this.dialog.close();
      if (first) this.go(first[0], first[1]);
    });
    choice.ariaLabel = name;
    choice.append(...CHOICES.map(([value, textContent]) => Object.assign(document.createElement("option"), { value, textContent })));
    choice.value = this.kept.all.has(name) ? "all" : this.kept.book.has(name) ? "book" : "shown";
    choice.addEventListener("change", () => this.choose(name, choice.value));
    row.append(words, choice);
    return row;
  }

  /** @type {(name: string, choice: string) => void} */
  choose(name, choice) {
    const { kept } = this;
    kept.book.delete(name);
    kept.all.delete(name);
    if (choice === "book") kept.book.add(name);
    if (choice === "all") kept.all.add(name);
    keepKinds(this.id, kept);
    this.apply();
    this.changed();
  }
}
