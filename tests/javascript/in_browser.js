// Answers streams of commands in a browser. The page that loads this module is beside the folder of the package.

import { answersOf } from "./conversation.mjs";
import { Session } from "/package/index.js";
import { WorkerSession } from "/package/worker.js";

async function opened(kind) {
  return kind === "worker" ? WorkerSession.open() : Session.open();
}

/** The answers to streams by their addresses, each as a string of one character for each byte. */
export async function answers(kind, addresses) {
  const all = [];
  for (const address of addresses) {
    const stream = new Uint8Array(await (await fetch(address)).arrayBuffer());
    const session = await opened(kind);
    all.push(Array.from(await answersOf(session, stream), (byte) => String.fromCharCode(byte)).join(""));
    await session.close();
  }
  return all;
}
