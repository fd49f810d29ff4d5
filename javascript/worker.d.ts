// The types of worker.js. The calls are those of `Session` in index.d.ts.

import type { Entry, Fault, Lines, ModuleSource, Report, Text, Title, Token, Work } from "./index.js";

/** A session in a worker of its own: the calls of `Session`, as promises. The calls are carried out in their order. */
export class WorkerSession {
  private constructor();
  static isSupported(): boolean;
  /** Starts a worker and opens a session in it. `module` is relative to the page; `worker` is one of yours that runs `worker_body.js`. */
  static open(options?: { module?: ModuleSource; worker?: unknown }): Promise<WorkerSession>;

  insert(at: number, lines: Lines): Promise<Report>;
  replace(from: number, to: number, lines: Lines): Promise<Report>;
  delete(from: number, to: number): Promise<Report>;
  setText(text: Text): Promise<Report>;

  readonly report: Promise<Report>;
  output(number: number): Promise<Uint8Array | null>;
  readonly numbers: Promise<number[]>;
  readonly titles: Promise<Title[]>;
  titlesIn(start?: number, stop?: number): Promise<Title[]>;
  readonly faults: Promise<Fault[]>;
  tokens(number: number): Promise<Token[]>;
  play(number: number): Promise<Entry[][] | null>;
  readonly lineCount: Promise<number>;
  readonly lines: Promise<string[]>;
  line(number: number): Promise<string>;
  lineBytes(number: number): Promise<Uint8Array>;
  utf16Column(line: number, column: number): Promise<number>;
  byteColumn(line: number, utf16Column: number): Promise<number>;
  readonly work: Promise<Work>;

  /** Ends the worker, and the calls without an answer. Twice is harmless. */
  close(): Promise<void>;
  [Symbol.asyncDispose](): Promise<void>;
}
