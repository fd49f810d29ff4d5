// The keys of the whole page, and the buttons of its head.

import { find } from "../base/elements.js";
import { commandOf } from "../base/shortcut_names.js";

/** @typedef {object} Parts
 * @property {import("../editor/text_sheet.js").Sheet} sheet
 * @property {import("../editor/search_bar.js").Search} search
 * @property {import("./question_bar.js").Questions} questions
 * @property {import("../dialogs/book_saving.js").Files} files
 * @property {import("../dialogs/book_saving.js").SaveAs} saveAs
 * @property {import("../dialogs/compared_texts.js").Comparing} comparing
 * @property {import("../score/score_view.js").Score} staves
 * @property {import("../link/book_host.js").BookHost} server
 * @property {import("../editor/fault_bar.js").FaultBar} faultBar
 * @property {import("../dialogs/book_tunes_dialog.js").BookTunesDialog} bookTunes
 * @property {import("./view_menu.js").ViewMenu} viewMenu
 * @property {import("../music/music_panel.js").Music} music */

export class Commands {
  /** @param {Parts} parts */
  constructor(parts) {
    const { search, files, saveAs, comparing, staves } = parts;
    this.parts = parts;
    document.addEventListener("keydown", (event) => this.key(event));
    find("save").addEventListener("click", () => files.save());
    find("utf-8").addEventListener("click", () => files.saveInUtf8());
    find("save-as").addEventListener("click", () => saveAs.open());
    find("unsaved").addEventListener("click", () => comparing.withSaved());
    find("find").addEventListener("click", () => {
      parts.viewMenu.needText();
      search.open(false);
    });
    find("print").addEventListener("click", () => staves.print());
  }

  /** @type {(event: KeyboardEvent) => void} */
  key(event) {
    const target = /** @type {Element} */ (event.target);
    if (target.closest("dialog") || event.isComposing) return; // an input method takes the keys of a composition
    if (this.parts.search.takes(event) || this.commands(event) || this.plays(event, target) || this.leaves(event, target)) event.preventDefault();
  }

  /** Saves, prints, goes to a fault or opens the dialog of the tunes, if a key is for that; returns whether it is.
   * @type {(event: KeyboardEvent) => boolean} */
  commands(event) {
    const { files, saveAs, staves, server, bookTunes } = this.parts;
    const name = commandOf(event);
    if (name === "s" && event.shiftKey) saveAs.open();
    else if (name === "s") files.save();
    else if (name === "p" && server.offers.score) staves.print();
    else if (event.key === "F8") this.step(!event.shiftKey);
    else if (event.key === "F9") bookTunes.open();
    else return false;
    return true;
  }

  /** Goes to the next fault, or the one before, in the text.
   * @type {(isForward: boolean) => void} */
  step(isForward) {
    this.parts.viewMenu.needText();
    this.parts.faultBar.step(isForward);
  }

  /** Plays or stops, if a key is for that; returns whether it is. Space alone is, but not in the text or on a button.
   * @type {(event: KeyboardEvent, target: Element) => boolean} */
  plays({ code, ctrlKey, shiftKey, altKey, metaKey }, target) {
    const { sheet, music } = this.parts;
    const isPlain = target !== sheet.area && !target.closest("button, a, input") && !altKey && !metaKey;
    if (code !== "Space" || !(ctrlKey || isPlain)) return false;
    if (ctrlKey && shiftKey) music.practice.fromCaret();
    else music.transport.playOrStop();
    return true;
  }

  /** Closes the search, or leaves the text for a question, if a key is for that; returns whether it is. If neither is there, the key
   * does nothing, so what is typed next goes into the text.
   * @type {(event: KeyboardEvent, target: Element) => boolean} */
  leaves({ key }, target) {
    const { sheet, search, questions } = this.parts;
    if (key !== "Escape" || target !== sheet.area) return false;
    if (search.isOpen) search.close();
    else questions.enter();
    return true;
  }
}
