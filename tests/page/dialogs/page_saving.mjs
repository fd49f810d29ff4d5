// Tries when the page saves, and which buttons it offers for that, without a browser. The folder of the page's scripts is the
// argument. Each test prints a line, `ok` or `FAILED`, with its name.

import { pathToFileURL } from "node:url";

import { run, same } from "../testing.mjs";

const from = (name) => import(pathToFileURL(`${process.argv[2]}/${name}.js`));
const { Files, SaveAs } = await from("dialogs/book_saving");
const { TitleBar } = await from("shell/title_bar");

/** An element that has what the page sets, and reports where the focus is. */
const element = (id) => ({ id, hidden: false, textContent: "", value: "", addEventListener() {}, focus: () => (document.activeElement = parts.get(id)), blur() {}, setSelectionRange() {} });
const parts = new Map();
const server = { offers: { saving: "folder" } };
const part = (id) => parts.get(id) ?? parts.set(id, element(id)).get(id);
globalThis.document = { activeElement: null, title: "", getElementById: part };
globalThis.HTMLElement = class {};

/** The files of a book, with or without a question about its text, and what happened. */
function filesOf(doubt, name = "book.abc") {
  const had = [];
  const link = { server, isUnsaved: true, known: { disk: "a", saved: "a" }, file: async (what) => had.push(`wrote: ${what}`) };
  const questions = { find: () => undefined, withdraw() {}, focus: (name) => had.push(`asked: ${name}`) };
  const book = { name };
  return { had, files: new Files({ text: { lines: [""] }, link, book, questions, say: (words) => had.push(words), doubt: () => doubt, compare() {}, undoKey: "" }) };
}

/** The dialog for another name. */
function dialogOf(files, had) {
  const dialog = { open: false, showModal: () => had.push("opened"), querySelector: (name) => part(name), addEventListener() {} };
  return new SaveAs(files, dialog, { area: part("area"), selection: () => null, refresh() {} });
}

/** Whether the button for UTF-8 is hidden, and what has the focus that was on it. */
function button(name, letters) {
  const { files } = filesOf(undefined, name);
  const bar = new TitleBar({ isUnsaved: false, state: { windows: 1, letters } }, { name }, files, part("back"));
  part("utf-8").focus();
  bar.show();
  return [part("utf-8").hidden, document.activeElement.id];
}

const tests = {
  async "nothing is saved before a question about the text is answered"() {
    const refused = ["asked: doubt 1", "Not saved: answer the question first."];
    for (const save of [(files) => files.save(), (files) => files.save({ over: "a" }), (files) => files.saveInUtf8(), (files, had) => dialogOf(files, had).open()]) {
      const { had, files } = filesOf("doubt 1");
      await save(files, had);
      same(had, refused);
    }
  },

  async "without a question all is saved"() {
    const { had, files } = filesOf();
    await files.save();
    await files.saveInUtf8();
    dialogOf(files, had).open();
    same(had, ["wrote: save", "Saved book.abc.", "wrote: save-in-utf-8", "Saved book.abc in UTF-8.", "opened"]);
  },

  async "a book that is gone from the disk was not changed by another program"() {
    for (const [disk, begin, answer, words] of [
      [null, "book.abc is not on the disk any more.", "Save this text", "Not saved: book.abc is not on the disk any more."],
      ["b", "Another program changed book.abc on the disk,", "Save this text over it", "Not saved: another program changed book.abc."],
    ]) {
      const { had, files } = filesOf(), asked = [];
      Object.assign(files.link, { known: { disk, saved: "a" }, away: "" });
      Object.assign(files.questions, { find: () => asked[0], ask: (question) => asked.push(question) });
      files.askAboutTheFile();
      await files.save();
      same([asked.length, asked[0].words.slice(0, begin.length), Object.keys(asked[0].answers)[0], had], [1, begin, answer, ["asked: disk", words]]);
    }
  },

  "a book that is not UTF-8 has a button, which passes its focus on when it goes"() {
    same([button("book.abc", "windows-1252"), button("book.abc", "both")], [[false, "utf-8"], [false, "utf-8"]]);
    same([button("book.abc", "utf-8"), button("", "windows-1252")], [[true, "back"], [true, "back"]]);
  },
};

await run(tests);
process.exit(0);
