// Answers streams of commands in Node: node answer.mjs PACKAGE KIND FILE .. writes the answers to FILE.answers. KIND is `session`,
// `worker`, or `two`: then a second session on the same engine is edited in turn.

import { readFileSync, writeFileSync } from "node:fs";
import { pathToFileURL } from "node:url";

import { answersOf } from "./conversation.mjs";

const [folder, kind, ...files] = process.argv.slice(2);
const { Session } = await import(pathToFileURL(`${folder}/index.js`));
const { WorkerSession } = await import(pathToFileURL(`${folder}/worker.js`));

for (const file of files) {
  const session = kind === "worker" ? await WorkerSession.open() : await Session.open();
  const other = kind === "two" ? await Session.open() : null;
  writeFileSync(`${file}.answers`, await answersOf(session, readFileSync(file), other));
  await session.close();
  other?.close();
}
