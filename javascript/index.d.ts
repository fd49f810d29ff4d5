/** A text: a string, which is written in UTF-8, or bytes. It is cut into lines at its line feeds. */
export type Text = string | Uint8Array;

/** What an edit takes: a text, or an array of lines without line feeds. */
export type Lines = Text | readonly Text[];

/** Where a module comes from: its URL, its bytes, or the compiled module. */
export type ModuleSource = string | URL | ArrayBuffer | Uint8Array | WebAssembly.Module;

/** What an edit changed: tune numbers, rising. */
export interface Report {
  /** The numbers whose MIDI file is new or has other bytes. */
  written: number[];
  /** The numbers that have no MIDI file any more. */
  removed: number[];
}

/** A tune of the text. */
export interface Title {
  number: number;
  /** The title as text: UTF-8, or Windows-1252 if it is not UTF-8. */
  text: string;
  bytes: Uint8Array;
}

/** A fault of the text. Lines and columns are counted from 1. */
export interface Fault {
  line: number;
  /** The column in bytes. */
  column: number;
  /** The column in UTF-16 units, as strings and editors count. */
  utf16Column: number;
  /** The name, as `BadMeter`. */
  name: string;
  /** A sentence on what is wrong. */
  wrong: string;
  /** What to write instead. */
  instead: string;
}

/** What a token of a line is. `Other` is a kind of a module newer than the package. */
export type TokenKind =
  | "Other"
  | "Note"
  | "Rest"
  | "BarRest"
  | "Chord"
  | "InlineField"
  | "BarLine"
  | "Ending"
  | "Tuplet"
  | "BrokenRhythm"
  | "Tie"
  | "Dynamic"
  | "Blank"
  | "Quoted"
  | "Decoration"
  | "Grace"
  | "Space"
  | "NoEffect"
  | "BadByte"
  | "Unclosed"
  | "Comment"
  | "NumberField"
  | "TitleField"
  | "KeyField"
  | "OtherField"
  | "Directive"
  | "FreeText";

/** A token of a line. Columns are counted from 1. */
export interface Token {
  /** The column of its first byte. */
  from: number;
  /** The column after its last byte. */
  to: number;
  /** The same columns in UTF-16 units, as strings and editors count. */
  utf16From: number;
  utf16To: number;
  kind: TokenKind;
  /** 1 for a part of a chord, else 0. */
  depth: number;
}

/** What an entry of a play is. `Other` is a kind of a module newer than the package. */
export type EntryKind = "Other" | "Note" | "Rest" | "Bar";

/** A tone, a rest or a bar line that is played. Ticks count from the beginning of the tune, 480 a quarter note. */
export interface Entry {
  on: number;
  /** Its own end: a tie does not lengthen it. */
  off: number;
  kind: EntryKind;
  /** The key of MIDI; null for a silent tone, a rest and a bar line. */
  key: number | null;
  /** The velocity of MIDI, or null. */
  velocity: number | null;
  /** Whether a tie joins a tone with one before it. */
  joined: boolean;
  /** Whether a tie follows a tone and it has a key. */
  tied: boolean;
  /** Its line, counted from 1. */
  line: number;
  /** The column of its first byte, counted from 1. */
  from: number;
  /** The column after its last byte. */
  to: number;
  /** The same columns in UTF-16 units, as strings and editors count. */
  utf16From: number;
  utf16To: number;
}

/** What all edits of a session, and all questions for tokens, cost so far. */
export interface Work {
  /** Lines scanned. */
  scanned: number;
  /** Pieces of music folded. */
  folded: number;
  /** MIDI files built. */
  built: number;
}

/** Whether this browser or program can run the module: it has WebAssembly, not older than the module needs. */
export function isSupported(): boolean;

/** An instance of the module with its memory. It may hold many sessions; those that name no engine share one. */
export class Engine {
  private constructor();
  /** Loads the module of the package, or another one. Throws `NotSupportedError`. */
  static load(source?: ModuleSource): Promise<Engine>;
  /** Whether the engine stopped in the middle of a call. Then it takes no other. */
  readonly isStopped: boolean;
  /** How many bytes the memory has. It never shrinks; a closed session leaves its room to others. */
  readonly memoryBytes: number;
}

/**
 * The text of a tune book under edits. At any time it has the MIDI files, titles and faults of the whole present text. Lines are
 * counted from 1. A refused edit throws an `EditError` and changes nothing.
 */
export class Session {
  private constructor();
  static isSupported(): boolean;
  /** Opens a session with no lines, over the shared engine or one of yours. Throws `NotSupportedError` and `OutOfMemory`. */
  static open(options?: { engine?: Engine }): Promise<Session>;

  /** Inserts lines before line `at`, which is from 1 to `lineCount + 1`. */
  insert(at: number, lines: Lines): Report;
  /** Replaces the lines from `from` to `to`, both included, by any number of lines. */
  replace(from: number, to: number, lines: Lines): Report;
  /** Deletes the lines from `from` to `to`, both included. */
  delete(from: number, to: number): Report;
  /** Makes the text another one, by few edits which it finds itself. It drops a byte order mark at the start. */
  setText(text: Text): Report;

  /** What the last edit changed. */
  readonly report: Report;
  /** The bytes of the MIDI file of a number, or null if it has none. */
  output(number: number): Uint8Array | null;
  /** The numbers that have a MIDI file, rising. */
  readonly numbers: number[];
  /** The tunes, in the order of the text. */
  readonly titles: Title[];
  /** Some of the tunes, as `titles.slice(start, stop)`. In a large book it takes less time than all of them. */
  titlesIn(start?: number, stop?: number): Title[];
  /** The faults, in the order of their places. */
  readonly faults: Fault[];
  /**
   * The tokens of a line, in order; after a chord come its parts. They cover the line but for a carriage return at its end. Throws a
   * `RangeError` if there is no such line.
   */
  tokens(number: number): Token[];
  /**
   * What is played of a number, when, and where it is in the text: the entries of each track of its MIDI file, in order of play. The
   * first track is the conductor's and has none. Null if no tune of that number has a file. Throws `PlayTooLong`.
   */
  play(number: number): Entry[][] | null;
  readonly lineCount: number;
  /** All lines as strings: UTF-8, or Windows-1252 if a line is not UTF-8. */
  readonly lines: string[];
  /** A line as a string. Throws a `RangeError` if there is none. */
  line(number: number): string;
  /** The bytes of a line. Throws a `RangeError` if there is none. */
  lineBytes(number: number): Uint8Array;
  /** The column in UTF-16 units of a column in bytes. A column outside of the line is that of its nearer end. */
  utf16Column(line: number, column: number): number;
  /** The column in bytes of a column in UTF-16 units. A column outside of the line is that of its nearer end. */
  byteColumn(line: number, utf16Column: number): number;
  readonly work: Work;

  /** Closes the session and frees its memory. Twice is harmless. */
  close(): void;
  [Symbol.dispose](): void;
}

/** What all errors of the package are. `name` is the name of the class. */
export class AbcError extends Error {}
/** An edit is refused, and changed nothing. */
export class EditError extends AbcError {}
/** The text does not have the lines of the edit, or they run backwards. */
export class BadRange extends EditError {}
/** A line has more than 65,535 bytes. */
export class BadLine extends EditError {}
/** The text would have more than 1,048,576 lines. */
export class TooLarge extends EditError {}
/** An allocation failed. The call changed nothing. */
export class OutOfMemory extends EditError {}
/** The voices of a tune play more than 1,000,000 notes, chords, rests, fields, programs and bar lines together. */
export class PlayTooLong extends AbcError {}
/** The session is closed. */
export class ClosedError extends AbcError {}
/** The engine stopped in the middle of a call. Its sessions take no other call. */
export class TrapError extends AbcError {}
/** This browser or program has no WebAssembly, one that is too old for the module, or a policy of the page that forbids it. */
export class NotSupportedError extends AbcError {}
/** The worker of a session does not start, or ended. */
export class WorkerError extends AbcError {}

declare global {
  interface SymbolConstructor {
    readonly dispose: unique symbol;
    readonly asyncDispose: unique symbol;
  }
}
