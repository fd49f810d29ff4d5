// The elements of the page by their names.

/** The element of a name, which the page has.
 * @param {string} id
 * @returns {HTMLElement} */
export function find(id) {
  const found = document.getElementById(id);
  if (!found) throw new Error(`the page has no ${id}`);
  return found;
}

/** Writes words into an element if it has others. The browser lays out all words that are written, also the same ones.
 * @param {HTMLElement} element
 * @param {string} words */
export function write(element, words) {
  if (element.textContent !== words) element.textContent = words;
}

/** Shows an element or hides it. An attribute that is set again costs as much as one that changes.
 * @param {HTMLElement} element
 * @param {boolean} isShown */
export function show(element, isShown) {
  if (element.hidden === isShown) element.hidden = !isShown;
}

/** Hides an element or shows it. If it has the focus and is hidden, another one gets that.
 * @param {HTMLElement} element
 * @param {boolean} isHidden
 * @param {HTMLElement} other */
export function hide(element, isHidden, other) {
  const isLeft = isHidden && element === document.activeElement;
  show(element, !isHidden);
  if (isLeft) other.focus({ preventScroll: true });
}

/** A field to be filled in or checked.
 * @param {string} id */
export function field(id) {
  return /** @type {HTMLInputElement} */ (find(id));
}

/** A button, which may be disabled.
 * @param {string} id */
export function button(id) {
  return /** @type {HTMLButtonElement} */ (find(id));
}
