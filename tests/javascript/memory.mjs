// Tries how the package uses memory, in Node with --expose-gc: node memory.mjs PACKAGE. Each test prints a line, `ok` or `FAILED`.

import { readFileSync } from "node:fs";
import { pathToFileURL } from "node:url";

import { run, same } from "../page/testing.mjs";

const folder = process.argv[2];
const { Engine, OutOfMemory, Session } = await import(pathToFileURL(`${folder}/index.js`));
const MODULE = readFileSync(`${folder}/abc2midi_live.wasm`);
const BOOK = Array.from({ length: 200 }, (_, n) => `X:${n + 1}\nT:Tune ${n}\nK:D\nDFAd fdAF|GBdg bgdB|A4 B4|^c8|]\n`).join("\n");
const MEMORY_SECTION = 5, WITHOUT_LIMIT = 0, WITH_LIMIT = 1; // of a module, and of a memory

/** A number as a module has it, and its bytes. */
function readNumber(bytes, at) {
  let value = 0, shift = 0, byte;
  do {
    byte = bytes[at];
    value += (byte & 127) * 2 ** shift;
    shift += 7;
    at += 1;
  } while (byte & 128);
  return { value, at };
}

function numberBytes(value) {
  return value < 128 ? [value] : [(value % 128) + 128, ...numberBytes(Math.floor(value / 128))];
}

/** The module with a memory that has at most some pages more than at its start. */
function limited(more) {
  let at = 8;
  while (MODULE[at] !== MEMORY_SECTION) {
    const size = readNumber(MODULE, at + 1);
    at = size.at + size.value;
  }
  const size = readNumber(MODULE, at + 1), flag = size.at + 1;
  same([MODULE[size.at], MODULE[flag]], [1, WITHOUT_LIMIT]);
  const pages = readNumber(MODULE, flag + 1).value;
  const section = [1, WITH_LIMIT, ...numberBytes(pages), ...numberBytes(pages + more)];
  return Buffer.concat([
    MODULE.subarray(0, at), Buffer.from([MEMORY_SECTION, ...numberBytes(section.length), ...section]), MODULE.subarray(size.at + size.value),
  ]);
}

/** All that a session has. */
const state = (it) => [it.lines, it.numbers, it.titles, it.faults, it.report, ...it.numbers.map((number) => it.output(number))];

/** Makes an edit on two sessions, of which only the second one has all memory that it wants. Whether the first one made it. */
function editBoth(session, twin, edit) {
  try {
    edit(session);
  } catch (error) {
    same([error instanceof OutOfMemory, state(session)], [true, state(twin)]);
    return false;
  }
  edit(twin);
  return true;
}

/** Inserts tunes till the memory is full, and deletes half of the text, several times. */
function fillAndEmpty(session, twin) {
  for (let round = 0; round < 4; round += 1) {
    let n = 0;
    while (editBoth(session, twin, (it) => it.insert(1, `X:${n}\nK:C\n${"CDEF GABc|".repeat(n % 50)}\n\n`))) n += 1;
    editBoth(session, twin, (it) => it.delete(1, Math.ceil(it.lineCount / 2)));
  }
  same(state(session), state(twin));
}

/** Opens a book and leaves it to the collector. */
async function drop(engine) {
  (await Session.open({ engine })).setText(BOOK);
}

await run({
  "the memory is as large after 100 books as after one": async () => {
    const engine = await Engine.load(MODULE);
    let first = 0;
    for (let n = 0; n < 100; n += 1) {
      const session = await Session.open({ engine });
      session.setText(BOOK);
      session.close();
      first ||= engine.memoryBytes;
    }
    same(engine.memoryBytes, first);
  },
  "a long text that is deleted leaves its room": async () => {
    const engine = await Engine.load(MODULE);
    const session = await Session.open({ engine });
    session.setText(BOOK);
    const once = engine.memoryBytes;
    for (let n = 0; n < 20; n += 1) {
      session.setText("");
      session.setText(BOOK);
    }
    same(engine.memoryBytes < 1.5 * once, true);
    session.close();
  },
  "sessions that are dropped are closed": async () => {
    const engine = await Engine.load(MODULE);
    await drop(engine);
    const once = engine.memoryBytes;
    for (let n = 0; n < 40; n += 1) {
      await drop(engine);
      for (let turn = 0; turn < 3; turn += 1) {
        gc();
        await new Promise((resolve) => setTimeout(resolve, 5));
      }
    }
    same(engine.memoryBytes < 10 * once, true);
  },
  "an edit that gets no memory is refused and changes nothing": async () => {
    const free = await Engine.load(MODULE);
    for (const more of [1, 2, 3, 5, 8, 13]) {
      const [session, twin] = [await Session.open({ engine: await Engine.load(limited(more)) }), await Session.open({ engine: free })];
      session.insert(1, "X:0\nK:C\n");
      twin.insert(1, "X:0\nK:C\n");
      fillAndEmpty(session, twin);
      for (const it of [session, twin]) it.close();
    }
  },
  "small free blocks become a large one if there is no other memory": async () => {
    const { malloc, free } = (await WebAssembly.instantiate(limited(1))).instance.exports;
    const blocks = [];
    for (let at = malloc(500n); at !== 0n; at = malloc(500n)) blocks.push(at);
    for (const at of blocks) free(at);
    same(malloc(BigInt(500 * blocks.length)) !== 0n, true);
  },
  "a block beyond 4 GiB is refused, and takes no memory": async () => {
    const { malloc, memory } = (await WebAssembly.instantiate(MODULE)).instance.exports;
    const before = memory.buffer.byteLength;
    const sizes = [2n ** 32n, 2n ** 32n + 100n, 2n ** 48n + 100000n, 2n ** 62n, 2n ** 63n - 1n];
    same(sizes.filter((bytes) => malloc(bytes) !== 0n).map(String), []);
    same(memory.buffer.byteLength, before);
  },
  "a session that gets no memory is not opened": async () => {
    const engine = await Engine.load(limited(1));
    const sessions = [];
    let refused = null;
    for (let n = 0; n < 10000 && !refused; n += 1) {
      try {
        sessions.push(await Session.open({ engine }));
      } catch (error) {
        refused = error;
      }
    }
    same(refused instanceof OutOfMemory, true);
    for (const session of sessions) session.close();
    (await Session.open({ engine })).close();
  },
});
