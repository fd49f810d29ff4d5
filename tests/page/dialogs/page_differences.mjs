// Tries what the page shows of the differences between two texts, without a browser. The folder of the page's scripts is the
// argument. Each test prints a line, `ok` or `FAILED`, with its name.

import { pathToFileURL } from "node:url";

import { run, same } from "../testing.mjs";

const from = (name) => import(pathToFileURL(`${process.argv[2]}/${name}.js`));
const { Comparing } = await from("dialogs/compared_texts");
const { differencesOf } = await from("dialogs/difference_rows");
const { summary } = await from("dialogs/differences_dialog");

/** The rows of the differences between texts, a letter a line, as words. */
const rows = (old, now) => differencesOf([...old], [...now]).rows.map(({ kind, old, now, words }) => `${kind} ${old} ${now} ${words}`);

/** What a comparison opened, and what it said. */
function comparing(answer) {
  const had = [];
  const server = { ask: async (name) => had.push(`asked ${name}`) && answer() };
  const dialog = { open: (old, now) => had.push(`${old.name}: ${old.lines}; ${now.name}: ${now.lines}`) };
  const say = (words) => had.push(words);
  return { had, comparing: new Comparing({ server, text: { lines: ["C", "D"] }, book: { name: "a.abc" }, dialog, say }) };
}

const tests = {
  "texts that are the same have no rows"() {
    same(differencesOf(["C", ""], ["C", ""]), { rows: [], out: 0, put: 0, more: 0 });
  },

  "lines that go and come, with two equal ones around them"() {
    same(rows("abcdefghij", "abcdeXghij"),
      ["gap 0 0 3 equal lines", "same 4 4 d", "same 5 5 e", "out 6 0 f", "in 0 6 X", "same 7 7 g", "same 8 8 h", "gap 0 0 2 equal lines"]);
  },

  "one equal line is shown and no row in its stead"() {
    same(rows("abcde", "abcdX"), ["gap 0 0 2 equal lines", "same 3 3 c", "same 4 4 d", "out 5 0 e", "in 0 5 X"]);
    same(rows("abcd", "abcX"), ["same 1 1 a", "same 2 2 b", "same 3 3 c", "out 4 0 d", "in 0 4 X"]);
    same(rows("Xabcdef", "Yabcdef").slice(2), ["same 2 2 a", "same 3 3 b", "gap 0 0 4 equal lines"]);
  },

  "what begins and what ends a text"() {
    same(rows("abc", "Xabc"), ["in 0 1 X", "same 1 2 a", "same 2 3 b", "same 3 4 c"]);
    same(rows("abc", "abcX"), ["same 1 1 a", "same 2 2 b", "same 3 3 c", "in 0 4 X"]);
    same(rows("", "ab"), ["in 0 1 a", "in 0 2 b"]);
  },

  "numbers count on after lines that came, and equal lines between two places are one row"() {
    same(rows("abcdefghX", "1abcdefgh2"),
      ["in 0 1 1", "same 1 2 a", "same 2 3 b", "gap 0 0 4 equal lines", "same 7 8 g", "same 8 9 h", "out 9 0 X", "in 0 10 2"]);
  },

  "each line is in the rows or counted, whatever the texts are"() {
    let state = 7;
    const chance = (below) => (state = (state * 48271) % 2147483647) % below;
    for (let round = 0; round < 500; round += 1) {
      const text = () => Array.from({ length: chance(24) }, () => "abc"[chance(3)]);
      const old = text(), now = text(), found = differencesOf(old, now);
      if (old.join() === now.join()) continue;
      const lines = (kind) => found.rows.reduce((sum, row) => sum + (row.kind === "gap" ? parseInt(row.words) : Number(row.kind === "same" || row.kind === kind)), 0);
      same([lines("out"), lines("in")], [old.length, now.length]);
      for (const row of found.rows) {
        if (row.old) same(old[row.old - 1], row.words);
        if (row.now) same(now[row.now - 1], row.words);
      }
    }
  },

  "a long difference is cut"() {
    const { rows, out, put, more } = differencesOf([], Array.from({ length: 5000 }, (_, n) => `${n}`));
    same([rows.length, out, put, more], [2000, 0, 5000, 3000]);
  },

  "the words name both texts"() {
    same(summary("a.abc on the disk", 1, "this text", 2), "− 1 line is only in a.abc on the disk. + 2 lines are only in this text.");
    same(summary("the book", 0, "your text", 0), "The lines of the book and of your text are the same.");
  },

  async "which texts are compared"() {
    const { had, comparing: one } = comparing(() => ({ lines: ["C"] }));
    await one.withSaved();
    await one.withDisk();
    one.withText(["E"], "your text");
    same(had, ["asked saved", "a.abc as it was saved last: C; this text: C,D", "asked disk", "a.abc on the disk: C; this text: C,D", "the book: C,D; your text: E"]);
  },

  async "a server that is away"() {
    const { had, comparing: one } = comparing(() => Promise.reject(new Error("it does not answer")));
    await one.withDisk();
    same(had, ["asked disk", "The differences cannot be shown: it does not answer."]);
  },
};

await run(tests);
process.exit(0);
