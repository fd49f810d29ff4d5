// Holds the conversations of the program with a session of the package, in its process or in a worker: the commands of a stream get
// the answers that the program writes. `build` is left out.

const FEED = 10;
const MOST_COUNT = 1048576; // of the lines of an edit
const REFUSED = ["BadRange", "BadLine", "TooLarge", "OutOfMemory"];
const EDIT = /^(?:(insert|delete)(?: \d{1,9}){2}|(replace)(?: \d{1,9}){3})$/;
const QUESTION = /^(?:titles|faults|hex \d{1,9})$/;
const BEFORE = 3; // lines that the second session has before those of the first one
const encoder = new TextEncoder();
const latin1 = new TextDecoder("latin1");

/** The lines of a stream, one after another. */
class Stream {
  constructor(bytes) {
    this.bytes = bytes;
    this.at = 0;
  }

  /** The next line, without its line feed; null at the end. */
  line() {
    if (this.at === this.bytes.length) return null;
    const from = this.at, feed = this.bytes.indexOf(FEED, from);
    this.at = feed < 0 ? this.bytes.length : feed + 1;
    return this.bytes.subarray(from, feed < 0 ? this.bytes.length : feed);
  }

  /** The next lines as one text; null if there are fewer. */
  text(count) {
    const from = this.at;
    for (let n = 0; n < count; n += 1) if (this.line() === null) return null;
    return this.bytes.subarray(from, this.at);
  }
}

/** The answers to a stream. With `other`, a session without lines, each edit is made there too, after three lines. */
export async function answersOf(session, bytes, other = null) {
  await other?.insert(1, "%\n%\n\n");
  const stream = new Stream(bytes), answers = [];
  for (let row = stream.line(); row !== null; row = stream.line()) {
    const command = latin1.decode(row).replace(/\r$/, "");
    if (command === "quit") break;
    const answer = await answerOf(session, stream, command, other);
    answers.push(...answer.map((part) => (typeof part === "string" ? encoder.encode(part) : part)));
    if (answer[0] === "error truncated\n") break;
  }
  return joined(answers);
}

function joined(parts) {
  const all = new Uint8Array(parts.reduce((sum, part) => sum + part.length, 0));
  let at = 0;
  for (const part of parts) {
    all.set(part, at);
    at += part.length;
  }
  return all;
}

/** The answer to a command, in parts. */
async function answerOf(session, stream, command, other) {
  const [name, ...words] = command.split(" ");
  const numbers = words.map(Number);
  if (EDIT.test(command)) return editAnswer(session, stream, name, numbers, other);
  if (!QUESTION.test(command)) return ["error command\n"];
  if (name === "titles") return [...(await session.titles).flatMap(({ number, bytes }) => [`${number} `, bytes, "\n"]), "end\n"];
  if (name === "faults") return [...(await session.faults).map((fault) => `${fault.line}:${fault.column} ${fault.name}\n`), "end\n"];
  const output = await session.output(numbers[0]);
  return [output === null ? "none\n" : `${hex(output)}\n`];
}

function hex(bytes) {
  return Array.from(bytes, (byte) => byte.toString(16).padStart(2, "0")).join("").toUpperCase();
}

/** The answer to an edit, whose lines follow in the stream. */
async function editAnswer(session, stream, name, numbers, other) {
  const count = name === "delete" ? 0 : numbers.pop();
  if (count > MOST_COUNT) return ["error command\n"];
  const text = stream.text(count);
  if (text === null) return ["error truncated\n"];
  const words = name === "delete" ? numbers : [...numbers, text];
  const answer = await editRow(session, name, words);
  const moved = words.map((word) => (typeof word === "number" && word > 0 ? word + BEFORE : word));
  const isRefused = answer.startsWith("error");
  if (other && (await editRow(other, name, moved)).startsWith("error") !== isRefused) throw new Error("the second session differs");
  return [answer];
}

/** The row that answers an edit. */
async function editRow(session, name, words) {
  try {
    const { written, removed } = await session[name](...words);
    return `${["ok written", ...written, "removed", ...removed].join(" ")}\n`;
  } catch (error) {
    if (!REFUSED.includes(error.name)) throw error;
    return `error ${error.name}\n`;
  }
}
