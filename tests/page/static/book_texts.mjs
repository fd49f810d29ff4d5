// Makes edits of tune books as the page without a server makes them. The argument is the folder of the page; standard input has
// the books, and the answer to each is a line: what the text shows, and the bytes of its file, at first and after each edit.

import { readFileSync } from "node:fs";
import { pathToFileURL } from "node:url";

const { BookText } = await import(pathToFileURL(`${process.argv[2]}/static/book_text.js`));

/** A text in words. Halves of pairs do not go through a stream of UTF-8, so lines are lists of units. */
function told(text) {
  const lines = text.shownLines.map((line) => Array.from({ length: line.length }, (_, n) => line.charCodeAt(n)));
  return { lines, bytes: Buffer.from(text.bytes).toString("hex"), letters: text.letters, returns: text.returns };
}

for (const { book, edits } of JSON.parse(readFileSync(0, "utf-8"))) {
  let text = BookText.of(Uint8Array.from(Buffer.from(book, "hex")));
  const all = [told(text)];
  for (const { start, stop, lines } of edits) {
    const put = lines.map((units) => String.fromCharCode(...units));
    text = text.edited(text.editOf(start, stop, put));
    all.push(told(text));
  }
  all.push(told(text.inUtf8));
  console.log(JSON.stringify(all));
}
