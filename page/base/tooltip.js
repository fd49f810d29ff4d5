// Words beside the mouse, about what it points at.

import { show } from "./elements.js";

export class Tip {
  /** @param {HTMLElement} root */
  constructor(root) {
    this.root = root;
  }

  /** Shows words and elements where an event was; without words it hides.
   * @param {(string | Node)[]} words
   * @param {MouseEvent | null} [event] */
  show(words, event) {
    const { root } = this;
    show(root, words.length > 0);
    if (!words.length || !event) return;
    root.replaceChildren(...words);
    root.style.left = `${Math.max(8, Math.min(event.clientX + 12, innerWidth - root.offsetWidth - 8))}px`;
    const below = event.clientY + 20;
    root.style.top = `${below + root.offsetHeight < innerHeight ? below : event.clientY - root.offsetHeight - 12}px`;
  }
}
