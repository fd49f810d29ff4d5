// The scores of tunes as a PDF, which the server makes. Without Ghostscript there the browser prints them.

import { bytesOfBase64 } from "../base/base64.js";
import { download } from "../base/download.js";
import { button, find, show, write } from "../base/elements.js";
import { fileName } from "../tunes/midi_names.js";
import { tuneOf } from "./score_view.js";

/** @typedef {import("../link/finding_rows.js").TuneRow} TuneRow
 * What the server answers: the file in base 64, the places of tunes that are not in it, a note, or why there is none, and whether a
 * program is missing.
 * @typedef {{ pdf?: string, left?: number[], note?: string, why?: string, missing?: boolean }} Answer
 * `book` has the name of the book; `listed` has the tunes of the list; `say` shows a sentence, `close` closes the dialog.
 * @typedef {object} Parts
 * @property {import("../link/book_host.js").BookHost} server
 * @property {import("../link/host_link.js").Link} link
 * @property {{ name: string }} book
 * @property {import("../link/findings.js").Findings} findings
 * @property {{ rows: TuneRow[] }} listed
 * @property {import("../music/music_panel.js").Music} music
 * @property {import("./score_view.js").Score} staves
 * @property {(words: string) => void} say
 * @property {() => void} close */

/** What is shown after a file of some tunes was stored. `left` are the places of those that are not in it.
 * @type {(name: string, rows: TuneRow[], left: number[], note: string) => string} */
export function storedWords(name, rows, left, note) {
  const numbers = left.slice(0, 5).map((place) => rows[place][1]).join(", "), more = left.length > 5 ? ", .." : "";
  const lack = left.length ? ` Not in it: ${numbers}${more} (no K: line, or too long).` : "";
  return `Stored ${name}.${lack}${note && ` ${note}`}`;
}

/** The name of the file of the tunes of the list, `count` of `all` tunes.
 * @type {(book: string, count: number, all: number) => string} */
export function listName(book, count, all) {
  const name = book.replace(/\.[^.]*$/, "") || "book";
  return count === all ? `${name}.pdf` : `${name} ${count} ${count === 1 ? "tune" : "tunes"}.pdf`;
}

export class ScorePdf {
  /** @param {Parts} parts */
  constructor(parts) {
    this.parts = parts;
    const hasScore = parts.server.offers.score;
    button("tune-pdf").hidden = !hasScore;
    find("of-the-list-group").hidden = !hasScore && !parts.server.offers.zip;
    button("list-pdf").hidden = !hasScore;
    button("tune-pdf").addEventListener("click", () => this.ofTune());
    button("list-pdf").addEventListener("click", () => this.ofList());
  }

  /** Shows which tunes there are. */
  show() {
    const { findings, listed, link, music } = this.parts, count = listed.rows.length, all = findings.tunes.length;
    find("of-the-list").textContent = count === all ? `All ${all} tunes:` : `${count} filtered ${count === 1 ? "tune" : "tunes"}:`;
    button("list-pdf").disabled = !count || Boolean(link.away);
    button("tune-pdf").disabled = !music.row || Boolean(link.away);
    if (this.parts.server.offers.score && !link.away) void this.learn();
  }

  /** Says below the buttons what a PDF needs and the server does not have. */
  async learn() {
    /** @type {{ why: string }} */
    const { why } = await this.parts.server.ask("pdf").catch(() => ({ why: "" }));
    write(find("pdf-needs"), why);
    show(find("pdf-needs"), Boolean(why));
  }

  ofTune() {
    const { row } = this.parts.music;
    if (row) void this.store([row], fileName(row[1], row[2], "pdf"));
  }

  ofList() {
    const { book, findings, listed } = this.parts;
    void this.store(listed.rows, listName(book.name, listed.rows.length, findings.tunes.length));
  }

  /** Stores the scores of some tunes under a name.
   * @type {(rows: TuneRow[], name: string) => Promise<void>} */
  async store(rows, name) {
    const { server, staves, say, close } = this.parts, tunes = this.drawn(rows);
    close();
    if (!tunes.length) return;
    say("The PDF is made.");
    const asked = { header: tunes[0].header, tunes: tunes.map(({ lines }) => lines) };
    /** @type {Answer} */
    const answer = await server.ask("pdf", asked).catch((/** @type {Error} */ error) => ({ why: `There is no PDF: ${error.message}.` }));
    if (answer.pdf) {
      download(new Blob([bytesOfBase64(answer.pdf)], { type: "application/pdf" }), name);
      return say(storedWords(name, rows, answer.left ?? [], answer.note ?? ""));
    }
    say(answer.why ?? "");
    if (answer.missing && document.body.dataset.score !== "missing") await staves.printAll(tunes);
  }

  /** The lines of tunes, as they are drawn.
   * @type {(rows: TuneRow[]) => import("./score_view.js").DrawnTune[]} */
  drawn(rows) {
    const { text, tunes } = this.parts.findings, places = new Map(tunes.map((row, at) => [row, at]));
    return rows.flatMap((row) => tuneOf(text.lines, tunes, places.get(row) ?? -1) ?? []);
  }
}
