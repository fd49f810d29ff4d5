// Tries the names and the words of PDFs, without a browser. The folder of the page's scripts is the argument. Each test prints a line,
// `ok` or `FAILED`, with its name.

import { pathToFileURL } from "node:url";

import { run, same } from "../testing.mjs";

globalThis.document = { addEventListener() {} };
const { listName, storedWords } = await import(pathToFileURL(`${process.argv[2]}/score/score_pdf.js`));

const ROWS = [3, 5, 8, 9, 11, 20, 21].map((number, n) => [n, number, "", true]);

const tests = {
  "the file of a list has the name of the book, and how many of its tunes are in it"() {
    same([listName("reels.abc", 3, 3), listName("", 1, 1), listName("my.reels.abc", 1, 3), listName("reels", 2, 3)], ["reels.pdf", "book.pdf", "my.reels 1 tune.pdf", "reels 2 tunes.pdf"]);
  },

  "tunes that are not in it are named, a few of them"() {
    same(storedWords("a.pdf", ROWS, [], ""), "Stored a.pdf.");
    same(storedWords("a.pdf", ROWS, [1, 2], "Note."), "Stored a.pdf. Not in it: 5, 8 (no K: line, or too long). Note.");
    same(storedWords("a.pdf", ROWS, [0, 1, 2, 3, 4, 5], ""), "Stored a.pdf. Not in it: 3, 5, 8, 9, 11, .. (no K: line, or too long).");
  },
};

await run(tests);
process.exit(0);
