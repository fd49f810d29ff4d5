// Speaks the commands of the program over a JavaScript package: node package_program.mjs PACKAGE BOOK. It answers `replace` of a line by
// one line, `titles`, `faults` and `hex`, which are what scripts/measure/long_session sends.

import { readFileSync } from "node:fs";
import { createInterface } from "node:readline";

const [folder, book] = process.argv.slice(2);
const { Session } = await import(`${folder}/index.js`);
const session = await Session.open();

const rowOf = ({ written, removed }) => ["ok written", ...written, "removed", ...removed].join(" ");
const latin1 = (bytes) => Buffer.from(bytes).toString("latin1");

/** The rows that answer a question. */
function answerTo(name, number) {
  if (name === "titles") return [...session.titles.map((title) => `${title.number} ${latin1(title.bytes)}`), "end"];
  if (name === "faults") return [...session.faults.map((fault) => `${fault.line}:${fault.column} ${fault.name}`), "end"];
  const output = session.output(Number(number));
  return [output === null ? "none" : Buffer.from(output).toString("hex").toUpperCase()];
}

const print = (rows) => process.stdout.write(Buffer.from(rows.map((row) => `${row}\n`).join(""), "latin1"));

print([rowOf(session.insert(1, readFileSync(book)))]);
let place = 0; // of the line that the next one replaces, 0 if the next one is a command
for await (const line of createInterface({ input: process.stdin.setEncoding("latin1"), crlfDelay: 0 })) {
  const [name, ...words] = line.split(" ");
  if (place) print([rowOf(session.replace(place, place, Buffer.from(line, "latin1")))]);
  else if (name !== "replace") print(answerTo(name, ...words));
  place = !place && name === "replace" ? Number(words[0]) : 0;
}
