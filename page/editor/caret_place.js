// The place of the caret in the store of the tab, by the book: a reload of the page goes back there.

/** @typedef {import("../text/selection.js").Place} Place */

/** @type {(book: string) => string} */
const keyOf = (book) => `abc2midi_live caret ${book}`;

/** @type {(book: string, place: Place) => void} */
export function keepPlace(book, { line, column }) {
  try {
    sessionStorage.setItem(keyOf(book), JSON.stringify({ line, column }));
  } catch {
    // a browser that stores nothing
  }
}

/** The place that was kept, if the page was loaded again; else null.
 * @type {(book: string) => Place | null} */
export function placeKept(book) {
  const [how] = performance.getEntriesByType("navigation");
  if (!how || /** @type {PerformanceNavigationTiming} */ (how).type === "navigate") return null;
  try {
    const { line, column } = JSON.parse(sessionStorage.getItem(keyOf(book)) ?? "null");
    return Number.isInteger(line) && Number.isInteger(column) ? { line, column } : null;
  } catch {
    return null;
  }
}
