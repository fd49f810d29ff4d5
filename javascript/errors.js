// The errors of the package. `name` is the name of the class, also in a page whose scripts were made shorter.

/** What all errors of the package are. */
export class AbcError extends Error {
  name = "AbcError";
}

/** An edit that is refused. It changed nothing. */
export class EditError extends AbcError {
  name = "EditError";
}

/** The text does not have the lines of the edit, or they run backwards. */
export class BadRange extends EditError {
  name = "BadRange";
}

/** A line has too many bytes. */
export class BadLine extends EditError {
  name = "BadLine";
}

/** The text would have too many lines. */
export class TooLarge extends EditError {
  name = "TooLarge";
}

/** An allocation failed. The call changed nothing. */
export class OutOfMemory extends EditError {
  name = "OutOfMemory";
}

/** The voices of a tune play more than 1,000,000 notes, chords, rests, fields, programs and bar lines together. */
export class PlayTooLong extends AbcError {
  name = "PlayTooLong";
}

/** The session is closed. */
export class ClosedError extends AbcError {
  name = "ClosedError";
}

/** The engine stopped in the middle of a call. Its sessions take no other call. */
export class TrapError extends AbcError {
  name = "TrapError";
}

/** This browser or program has no WebAssembly, one that is too old for the module, or a policy of the page that forbids it. */
export class NotSupportedError extends AbcError {
  name = "NotSupportedError";
}

/** The worker of a session does not start, or ended. */
export class WorkerError extends AbcError {
  name = "WorkerError";
}

const SENTENCES = new Map([
  [BadRange, "the text does not have these lines, or they run backwards"],
  [BadLine, "a line has more than 65,535 bytes"],
  [TooLarge, "the text would have more than 1,048,576 lines"],
  [OutOfMemory, "an allocation failed; nothing is changed"],
  [PlayTooLong, "more than 1,000,000 notes, chords, rests, fields, programs and bar lines are played"],
  [
    NotSupportedError,
    "WebAssembly is missing or too old here: use Chromium 94, Firefox 93, Safari 16.4, Node 18 or a later one of them",
  ],
]);

/** An error of one of the classes that have a sentence of their own. */
export function refusal(Kind) {
  return new Kind(SENTENCES.get(Kind));
}

const CLASSES = {
  AbcError, EditError, BadRange, BadLine, TooLarge, OutOfMemory, PlayTooLong, ClosedError, TrapError, NotSupportedError, WorkerError,
  TypeError, RangeError,
};

/** The error of a name and a message, as a worker sends them. */
export function errorOf({ name, message }) {
  return Object.hasOwn(CLASSES, name) ? new CLASSES[name](message) : new AbcError(`${name}: ${message}`);
}
