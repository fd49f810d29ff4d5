// The dialog with a link to the tune at the caret. A link leads to a page without a server: to this one, or to one whose address the server
// keeps. The server also makes the QR code of the link.

import { button, field, find, show } from "../base/elements.js";
import { tuneOf } from "../score/score_view.js";
import { codeImage } from "./qr_code.js";
import { MOST_CHARACTERS, linkOf } from "./share_link.js";

const NO_ADDRESS = "A link leads to this page without a server, as it is on some web server. Write its address.";
const NO_CODE = { rows: [], why: "" };

export class ShareDialog {
  /** @param {import("../shell/application.js").Application} page */
  constructor(page) {
    this.page = page;
    this.dialog = /** @type {HTMLDialogElement} */ (find("share-dialog"));
    this.link = field("share-link");
    this.address = field("share-address");
    this.asked = 0; // how often a link was asked for
    find("share").addEventListener("click", () => void this.open());
    find("share-copy").addEventListener("click", () => void this.copy());
    find("share-close").addEventListener("click", () => this.dialog.close());
    this.address.addEventListener("change", () => void this.keep());
    show(find("share-address-label"), this.isServed);
  }

  /** Whether the server keeps the address to which links lead. */
  get isServed() {
    return Boolean(this.page.server.offers.codes);
  }

  /** The tune at the caret with the file header, and its name; null before the first tune. */
  get tune() {
    const { text, findings, caretTune } = this.page, tune = tuneOf(text.lines, findings.tunes, caretTune.at);
    if (!tune || !caretTune.row) return null;
    const { header, lines } = tune, [, number, title] = caretTune.row;
    return { name: `tune ${number}${title ? `, ${title}` : ""}`, text: [...header, ...(header.length ? [""] : []), ...lines, ""].join("\n") };
  }

  async open() {
    const { page, tune, address } = this;
    if (!tune) return page.status.say("Not shared: the caret is in no tune.");
    const kept = this.isServed ? await page.server.ask("share").catch(() => null) : null;
    address.value = this.isServed ? (kept?.address ?? "") : location.href;
    find("share-done").textContent = "";
    this.dialog.showModal();
    await this.show();
    if (!address.value) address.focus();
  }

  /** Shows the link to the tune, if there is an address to which it leads. */
  async show() {
    const { tune, link, address } = this, base = address.value, asked = (this.asked += 1);
    const made = base && tune ? await linkOf(base, tune.text) : "", fits = made !== "" && made.length <= MOST_CHARACTERS;
    if (asked !== this.asked) return;
    find("share-words").textContent = made ? wordsOn(tune?.name ?? "", made.length, fits) : NO_ADDRESS;
    link.value = fits ? made : "";
    link.hidden = !fits;
    button("share-copy").hidden = !fits;
    if (fits) link.select();
    const { rows, why } = fits && this.isServed ? await this.code(made) : NO_CODE;
    if (asked === this.asked) find("share-code").replaceChildren(...(rows.length ? [codeImage(rows)] : [why]));
  }

  /** The rows of the QR code of a link, or why there is none.
   * @type {(text: string) => Promise<{ rows: string[], why: string }>} */
  async code(text) {
    const answer = await this.page.server.ask("code", { text }).catch((error) => ({ why: `There is no QR code: ${error.message}.` }));
    return { ...NO_CODE, ...answer };
  }

  /** The server keeps another address, and the link leads there. */
  async keep() {
    const { page, address } = this;
    const answer = await page.server.ask("share", { address: address.value.trim() }).catch((error) => ({ why: `${error.message}.` }));
    find("share-done").textContent = answer.why ?? "";
    if (!answer.why) address.value = answer.address;
    await this.show();
  }

  /** Copies the link. A page that did not come by https may not: then the link is selected. */
  async copy() {
    const isCopied = await navigator.clipboard?.writeText(this.link.value).then(() => true, () => false);
    find("share-done").textContent = isCopied ? "The link is copied." : "The browser does not let this page copy. The link is selected: copy it yourself.";
    if (isCopied) return;
    this.link.focus();
    this.link.select();
  }
}

/** What is said of a link of so many characters.
 * @type {(name: string, count: number, fits: boolean) => string} */
function wordsOn(name, count, fits) {
  const size = count.toLocaleString("en");
  if (fits) return `This link has ${name}, in ${size} characters. Whoever opens it sees and hears the tune. No server gets it.`;
  return `A link to ${name} needs ${size} characters. The most is ${MOST_CHARACTERS.toLocaleString("en")}: send the file instead.`;
}
