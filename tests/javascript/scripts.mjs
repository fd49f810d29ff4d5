// Tries the scripts of the package that need no module. Each test prints a line, `ok` or `FAILED`, with its name.

import { chances, run, same } from "../page/testing.mjs";
import { fewEdits } from "../../javascript/edits.js";
import { errorOf, BadRange } from "../../javascript/errors.js";
import { byteColumnOf, bytesOfBook, bytesOfLines, countLines, hasLongLine, numberFor, textOf, utf16ColumnOf } from "../../javascript/lines.js";

const bytes = (text) => new TextEncoder().encode(text);
const text = (of) => new TextDecoder("utf-8", { ignoreBOM: true }).decode(of);
const lines = (of) => of.split("\n").slice(0, -1);
const WORDS = ["X:1", "X:2", "CDEF|", "GABc|", "", "% words"];

const randomLines = (next, most) => Array.from({ length: next(most) }, () => WORDS[next(WORDS.length)]);

/** A text after edits. */
function edited(old, edits) {
  const now = lines(old);
  for (const edit of [...edits].reverse()) now.splice(edit.start, edit.stop - edit.start, ...lines(text(edit.text)));
  return now.map((line) => `${line}\n`).join("");
}

/** The edits that make one text of another, both in bytes. */
const editsOf = (old, now) => fewEdits(old, now, countLines(old));

/** The name of the error that a call throws. */
function thrown(call) {
  try {
    call();
  } catch (error) {
    return error.name;
  }
  return "nothing";
}

await run({
  "edits make one text of another, for random texts": () => {
    const next = chances(1);
    for (let n = 0; n < 5000; n += 1) {
      const old = randomLines(next, 14);
      const now = next(3) ? [...old] : randomLines(next, 14);
      now.splice(next(now.length + 1), next(3), ...randomLines(next, 3));
      const [from, to] = [old, now].map((list) => list.map((line) => `${line}\n`).join(""));
      same(edited(from, editsOf(bytes(from), bytes(to))), to);
    }
  },
  "equal texts have no edits": () => {
    for (const both of ["", "\n", "X:1\nK:C\nCDEF|\n"]) same(editsOf(bytes(both), bytes(both)), []);
  },
  "one changed line is one edit of this line": () => {
    const old = "X:1\nK:C\nCDEF|\n\nX:2\nK:C\nGABc|\n";
    same(editsOf(bytes(old), bytes(old.replace("GABc", "GABd"))), [{ start: 6, stop: 7, text: bytes("GABd|\n") }]);
    same(editsOf(bytes(old), bytes(old.replace("CDEF|\n", ""))), [{ start: 2, stop: 3, text: bytes("") }]);
    same(editsOf(bytes(old), bytes(`${old}\n`)), [{ start: 7, stop: 7, text: bytes("\n") }]);
  },
  "changes of two tunes are two edits, and those of one tune are one": () => {
    const old = "X:1\nK:C\nCDEF|\nGABc|\n\nX:2\nK:C\ncBAG|\nFEDC|\n";
    const two = old.replace("CDEF", "CDE2").replace("FEDC", "FED2");
    same(editsOf(bytes(old), bytes(two)).map(({ start, stop }) => [start, stop]), [[2, 3], [8, 9]]);
    const one = old.replace("K:C\nc", "K:D\nc").replace("FEDC", "FED2");
    same(editsOf(bytes(old), bytes(one)).map(({ start, stop }) => [start, stop]), [[6, 9]]);
  },
  "the edits begin at the right line in either half of a text": () => {
    const old = bytes(Array.from({ length: 100 }, (_, n) => `${n}\n`).join(""));
    for (const [line, more] of [[3, ""], [3, "x"], [96, ""], [96, "xyzuv"]]) {
      const now = bytes(text(old).replace(`\n${line}\n`, `\n+${more}\n`));
      same(editsOf(old, now), [{ start: line, stop: line + 1, text: bytes(`+${more}\n`) }]);
    }
  },
  "tunes that are moved are few edits": () => {
    const tune = (n) => `X:${n}\nK:C\n${"CDEF|".repeat(n)}\n\n`;
    const order = (...numbers) => bytes(numbers.map(tune).join(""));
    same(editsOf(order(1, 2, 3, 4, 5), order(1, 4, 2, 3, 5)).length, 2);
  },
  "far edits of the longest text are two if it has room for both on the way": () => {
    const most = 1048576, removed = "R\n".repeat(100), added = "A\n".repeat(10);
    for (const [room, count] of [[0, 1], [9, 1], [10, 2]]) {
      const middle = `X:1\n${"\n".repeat(most - room - 102)}X:2\n`, old = bytes(removed + middle), now = bytes(middle + added);
      const edits = editsOf(old, now);
      same(edits.length, count);
      if (count === 2) same(edits.map(({ start, stop }) => [start, stop]), [[0, 100], [most - room, most - room]]);
    }
  },
  "the lines of a text, an array and a book": () => {
    same(text(bytesOfLines("A\nB")), "A\nB");
    same(text(bytesOfLines(["A", bytes("B"), ""])), "A\nB\n\n");
    same(text(bytesOfLines([])), "");
    same(thrown(() => bytesOfLines(["A\nB"])), "TypeError");
    same(thrown(() => bytesOfLines(7)), "TypeError");
    same(text(bytesOfBook("\ufeffA\nB")), "A\nB\n");
    same(text(bytesOfBook(new Uint8Array([0xef, 0xbb, 0xbf, 65]))), "A\n");
    const mine = bytes("A\n"), book = bytesOfBook(mine);
    mine[0] = 66;
    same(text(book), "A\n");
    same(text(bytesOfBook("A\n\ufeffB\n")), "A\n\ufeffB\n");
    same([bytesOfBook("").length, bytesOfBook("\n").length], [0, 1]);
  },
  "lines are counted, and long ones are found": () => {
    same([countLines(bytes("")), countLines(bytes("\n\nA\n"))], [0, 3]);
    same([hasLongLine(bytes(`${"C".repeat(65535)}\n`)), hasLongLine(bytes(`A\n${"C".repeat(65536)}\n`))], [false, true]);
  },
  "numbers that the module can take": () => {
    same([0, 1, 4294967295, 4294967296, -1].map(numberFor), [0, 1, 4294967295, null, null]);
    for (const wrong of ["1", 1.5, NaN, null, undefined, 1n]) same(thrown(() => numberFor(wrong)), "TypeError");
  },
  "a line is UTF-8, or else Windows-1252": () => {
    same(textOf(bytes("caf\u00e9 \u{1d11e}")), "caf\u00e9 \u{1d11e}");
    same(textOf(new Uint8Array([0x63, 0xe9, 0x80, 0x81, 0x93, 0x9f, 0xa0, 0xff])), "c\u00e9\u20ac\u0081\u201c\u0178\u00a0\u00ff");
    same(textOf(bytes("\ufeffA")), "\ufeffA");
  },
  "columns in bytes and in UTF-16 units": () => {
    const line = bytes("a\u00e9\u20ac\u{1d11e}b"); // characters of 1, 2, 3, 4 and 1 bytes; the fourth has two units
    same([1, 2, 3, 4, 5, 6, 7, 8, 9, 10, 11, 12].map((column) => utf16ColumnOf(line, column)), [1, 2, 2, 3, 3, 3, 4, 4, 4, 4, 6, 7]);
    same([1, 2, 3, 4, 5, 6, 7, 8].map((column) => byteColumnOf(line, column)), [1, 2, 4, 7, 7, 11, 12, 12]);
    const latin = new Uint8Array([0x61, 0xe9, 0x62]);
    same([1, 2, 3, 4, 5].map((column) => utf16ColumnOf(latin, column)), [1, 2, 3, 4, 4]);
    same([1, 2, 3, 4, 5].map((column) => byteColumnOf(latin, column)), [1, 2, 3, 4, 4]);
    for (const columnOf of [utf16ColumnOf, byteColumnOf]) {
      for (const at of [line, latin, bytes("")]) same([0, -1, -7].map((column) => columnOf(at, column)), [1, 1, 1]);
      for (const wrong of [1.5, NaN, "1", undefined]) same(thrown(() => columnOf(line, wrong)), "TypeError");
    }
  },
  "errors of a worker have their class again": () => {
    const error = errorOf({ name: "BadRange", message: "why" });
    same([error instanceof BadRange, error.name, error.message], [true, "BadRange", "why"]);
    same([errorOf({ name: "constructor", message: "why" }).name, errorOf({ name: "SyntaxError", message: "why" }).message], ["AbcError", "SyntaxError: why"]);
  },
});
