// Which parts of the page are shown: each can be hidden, or be the whole window. The browser keeps that, and the sizes of the parts.

import { field, find, write } from "../base/elements.js";
import { Splitters } from "./splitters.js";

const KEY = "abc2midi_live_view"; // in the browser's store
/** What is hidden while a part is the whole window. The bar that plays stays with the score and the roll.
 * @type {Record<string, string[]>} */
const BESIDE = {
  text: ["tunes", "score", "roll", "music"],
  faults: ["sheet", "tunes", "score", "roll", "music"],
  tunes: ["text", "score", "roll", "music"],
  score: ["text", "tunes", "roll"],
  roll: ["text", "tunes", "score"],
};

/** @typedef {{ hidden: string[], sizes: Record<string, number> }} View */

export class ViewMenu {
  /** @param {HTMLElement} root has the parts
   * @param {HTMLDialogElement} dialog
   * @param {HTMLElement} area gets the focus if what had it is hidden */
  constructor(root, dialog, area) {
    this.root = root;
    this.dialog = dialog;
    this.area = area;
    const { hidden, sizes } = keptView();
    this.hidden = new Set(hidden);
    this.whole = ""; // the part that is the whole window
    this.splitters = new Splitters(root, sizes, () => this.keep());
    find("view-open").addEventListener("click", () => (this.whole ? this.showWhole("") : dialog.showModal()));
    find("view-close").addEventListener("click", () => dialog.close());
    for (const name of Object.keys(BESIDE)) {
      field(`view-${name}`).addEventListener("change", () => this.showPart(name, field(`view-${name}`).checked));
      find(`whole-${name}`).addEventListener("click", () => this.showWhole(name));
    }
    this.show();
  }

  /** Shows a part or hides it.
   * @type {(name: string, isShown: boolean) => void} */
  showPart(name, isShown) {
    if (isShown) this.hidden.delete(name);
    else this.hidden.add(name);
    this.show();
    this.keep();
  }

  /** Makes a part the whole window, or shows the others again.
   * @type {(name: string) => void} */
  showWhole(name) {
    this.whole = name;
    this.dialog.close();
    this.show();
  }

  /** Shows the text if it is hidden, as a key goes there. */
  needText() {
    if (this.whole && this.whole !== "text") this.showWhole("");
    if (this.hidden.has("text")) this.showPart("text", true);
  }

  show() {
    const { root, whole, hidden } = this;
    root.dataset.hide = (whole ? BESIDE[whole] : [...hidden]).join(" ");
    for (const name of Object.keys(BESIDE)) field(`view-${name}`).checked = !hidden.has(name);
    write(find("view-open"), whole ? "All parts" : "View");
    find("view-open").classList.toggle("chosen", whole !== "");
    const focus = document.activeElement;
    if (focus && root.contains(focus) && !focus.getClientRects().length) this.area.focus({ preventScroll: true });
  }

  keep() {
    try {
      localStorage.setItem(KEY, JSON.stringify({ hidden: [...this.hidden], sizes: this.splitters.sizes }));
    } catch {
      // a browser that stores nothing
    }
  }
}

/** What the browser kept; what it cannot read is the usual view.
 * @type {() => View} */
function keptView() {
  try {
    const { hidden = [], sizes = {} } = JSON.parse(localStorage.getItem(KEY) ?? "{}");
    return { hidden, sizes };
  } catch {
    return { hidden: [], sizes: {} };
  }
}
