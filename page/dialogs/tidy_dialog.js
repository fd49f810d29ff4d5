// The dialog that tidies the tune at the caret, or the lines that are selected.

import { field } from "../base/elements.js";
import { tidied } from "../tunes/tidy.js";
import { TuneDialog } from "./tune_dialog.js";

export class TidyDialog extends TuneDialog {
  /** @param {import("./tune_dialog.js").Parts} parts */
  constructor(parts) {
    super(parts, "tidy", ({ lines }, range) => {
      const choices = { spaces: field("tidy-first").checked, bars: field("tidy-bars").checked, lengths: field("tidy-lengths").checked };
      const found = tidied(lines, choices, range?.start.line, range?.end.line), count = found.filter((line, n) => line !== lines[n].text).length;
      const words = count === 1 ? "1 line" : `${count} lines`;
      return { lines: found, words: count ? `${words} will change, and sound the same.` : "All of it is tidy.", done: `Tidied ${words}.`, left: [] };
    });
  }
}
