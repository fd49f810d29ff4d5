// Undo and redo as buttons, for a screen without a keyboard.

import { button } from "../base/elements.js";

export class UndoButtons {
  /** @param {import("../editor/text_sheet.js").Sheet} sheet */
  constructor(sheet) {
    this.sheet = sheet;
    this.undo = button("undo");
    this.redo = button("redo");
    for (const one of [this.undo, this.redo]) {
      one.addEventListener("pointerdown", (event) => event.preventDefault()); // the text keeps the focus, and a phone its keyboard
      one.addEventListener("click", () => this.go(one === this.undo));
    }
  }

  /** @type {(isBack: boolean) => void} */
  go(isBack) {
    this.sheet.history(isBack);
    this.show();
  }

  /** Shows whether there is something to undo and to do again. */
  show() {
    const { past, future } = this.sheet.text.history;
    if (this.undo.disabled !== !past.length) this.undo.disabled = !past.length;
    if (this.redo.disabled !== !future.length) this.redo.disabled = !future.length;
  }
}
