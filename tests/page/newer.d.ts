// What the page takes of browsers of 2023, and the libraries of an older compiler do not have.

interface Array<T> {
  findLast(predicate: (value: T, index: number, all: T[]) => unknown): T | undefined;
  findLastIndex(predicate: (value: T, index: number, all: T[]) => unknown): number;
  toSpliced(start: number, count: number, ...items: T[]): T[];
  with(index: number, value: T): T[];
}

declare class CompressionStream implements GenericTransformStream {
  constructor(format: "deflate-raw");
  readonly readable: ReadableStream<Uint8Array>;
  readonly writable: WritableStream<Uint8Array>;
}

declare class DecompressionStream extends CompressionStream {}

/** Keeps the screen on. */
interface WakeLockSentinel extends EventTarget {
  readonly released: boolean;
  release(): Promise<void>;
}

interface WakeLock {
  request(type: "screen"): Promise<WakeLockSentinel>;
}

/** A keyboard that is connected by MIDI. */
interface MIDIInput {
  readonly name: string | null;
  readonly state: "connected" | "disconnected";
  onmidimessage: ((event: { data: Uint8Array | null }) => void) | null;
}

interface MIDIAccess {
  readonly inputs: Map<string, MIDIInput>;
  onstatechange: (() => void) | null;
}

interface Navigator {
  readonly requestMIDIAccess?: () => Promise<MIDIAccess>;
}
