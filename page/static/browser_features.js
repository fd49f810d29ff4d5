// What the page needs of a browser, checked at its start. docs/static_page.md names the first browsers that have all of it.

import { Session } from "../abc2midi-live/index.js";

/** By what is lacking if it is false.
 * @type {Record<string, () => boolean>} */
const FEATURES = {
  "the WebAssembly of today": () => Session.isSupported(),
  "findLast of lists": () => "findLast" in Array.prototype,
  "the selector :has": () => CSS.supports("selector(:has(*))"),
  "ARIA properties": () => ["ariaLabel", "ariaSelected", "ariaExpanded"].every((name) => name in Element.prototype),
};

/** What this browser lacks of what the page needs.
 * @type {() => string[]} */
export const lackingFeatures = () => Object.keys(FEATURES).filter((name) => !FEATURES[name]());
