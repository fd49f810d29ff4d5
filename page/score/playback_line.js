// The line of playback in the score: through the note that began last of those that sound.

/** @typedef {{ element: Element }} Drawn a note of the score, with the element that covers it */

const BEYOND = 14; // pixels above the highest note and below the lowest one

export class ScoreLine {
  /** @param {HTMLElement} view */
  constructor(view) {
    this.view = view;
    this.element = Object.assign(document.createElement("div"), { className: "score-line", ariaHidden: "true" });
    this.top = 0;
  }

  /** Moves to the notes that sound, which are in the view; without any it goes. In another system it begins anew, and does not glide there.
   * @type {(notes: Drawn[]) => void} */
  show(notes) {
    const { element, view } = this;
    if (!notes.length) return element.remove();
    const places = notes.map((note) => note.element.getBoundingClientRect()), edge = view.getBoundingClientRect();
    const { left, right } = places.reduce((one, other) => (other.left > one.left ? other : one));
    const top = Math.min(...places.map((place) => place.top)) - BEYOND, height = Math.max(...places.map((place) => place.bottom)) + BEYOND - top;
    const x = (left + right) / 2 - edge.left + view.scrollLeft - view.clientLeft, y = Math.max(0, top - edge.top + view.scrollTop - view.clientTop);
    const isGliding = element.parentElement === view && Math.abs(y - this.top) < height;
    element.classList.toggle("glides", isGliding);
    if (!isGliding) view.append(element);
    Object.assign(element.style, { left: `${x}px`, top: `${y}px`, height: `${height}px` });
    this.top = y;
  }
}
