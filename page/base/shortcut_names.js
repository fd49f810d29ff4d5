// The names of keys, which differ on a Mac, and the line at the bottom that has them; and which command a key is.

/** @type {{ userAgentData?: { platform: string }, platform?: string } | undefined} */
const machine = globalThis.navigator; // only some browsers have `userAgentData`
const isMac = /mac|iphone|ipad/i.test(machine?.userAgentData?.platform || machine?.platform || "");

/** Keys as this machine names them: "Ctrl-S" is "⌘S" on a Mac. There Ctrl-H hides the program, and Ctrl-Space stays.
 * @type {(name: string, onMac?: boolean) => string} */
export function keysOf(name, onMac = isMac) {
  if (!onMac || name.endsWith("Space")) return name;
  if (name === "Ctrl-H") return "⌥⌘F";
  if (name === "Ctrl-Y") return "⇧⌘Z";
  return name.replace("Ctrl-", "⌘").replace("Shift-", "⇧").replace("Alt-", "⌥");
}

/** The key of a command, as a small letter or a name; "" if the key for commands is not held, which is Command on a Mac, and Ctrl
 * elsewhere. A keyboard with other letters than Latin ones has those of the places of its keys, but for what Alt writes there.
 * @type {(event: KeyboardEvent, onMac?: boolean) => string} */
export function commandOf({ key, code, ctrlKey, metaKey, altKey }, onMac = isMac) {
  if (onMac ? ctrlKey || !metaKey : metaKey || !ctrlKey) return "";
  if (key.length > 1) return key;
  const isOther = key > "\x7f" && (onMac || !altKey) && /^Key[A-Z]$/.test(code);
  return isOther ? code.slice(3).toLowerCase() : key.toLowerCase();
}

/** Words with the names of keys as this machine has them.
 * @type {(words: string, onMac?: boolean) => string} */
export const withKeys = (words, onMac = isMac) => words.replace(/\b(?:(?:Ctrl|Shift|Alt)-)+(?:Space|Enter|F\d+|[A-Z]\b)/g, (name) => keysOf(name, onMac));

/** Names the keys in the titles of a page.
 * @type {(root: Document) => void} */
export function nameKeys(root) {
  if (!isMac) return;
  for (const element of /** @type {NodeListOf<HTMLElement>} */ (root.querySelectorAll("[title]"))) element.title = withKeys(element.title);
  for (const element of root.querySelectorAll("kbd")) element.textContent = keysOf(element.textContent ?? "");
  for (const element of root.querySelectorAll("[aria-keyshortcuts^=Control]:not([aria-keyshortcuts$=Space])")) {
    element.setAttribute("aria-keyshortcuts", element.getAttribute("aria-keyshortcuts")?.replace("Control", "Meta") ?? "");
  }
}
