// A program with the types of the package. `tsc --strict` accepts it; each line after `@ts-expect-error` has to be refused.

import { Engine, OutOfMemory, Session, TrapError, isSupported } from "../../javascript/index.js";
import type { Entry, EntryKind, Fault, Report, Title, Token, TokenKind, Work } from "../../javascript/index.js";
import { WorkerSession } from "../../javascript/worker.js";

async function edit(session: Session): Promise<void> {
  const report: Report = session.insert(1, "X:1\nK:C\nCDEF|\n");
  const more: Report[] = [session.replace(1, 2, ["X:2", new Uint8Array([75, 58, 67])]), session.delete(1, 1), session.setText(new Uint8Array(3))];
  const numbers: number[] = [...report.written, ...more.flatMap((it) => it.removed), ...session.numbers, ...session.report.written];
  const output: Uint8Array | null = session.output(numbers[0] ?? 1);
  const faults: Fault[] = session.faults;
  const words: string[] = faults.map((fault) => `${fault.line}:${fault.column}:${fault.utf16Column} ${fault.name} ${fault.wrong} ${fault.instead}`);
  const tokens: Token[] = session.tokens(1);
  const kinds: TokenKind[] = tokens.filter((token) => token.from < token.to && token.utf16From < token.utf16To && !token.depth).map((token) => token.kind);
  const play: Entry[][] | null = session.play(numbers[0] ?? 1);
  const keys: (number | null)[] = (play ?? []).flat().map((entry) => (entry.on < entry.off && !entry.joined && !entry.tied ? entry.key : entry.velocity));
  const entries: EntryKind[] = (play ?? []).flat().map((entry) => entry.kind);
  const titles: Title[] = [...session.titles, ...session.titlesIn(0, 1)];
  const bytes: Uint8Array[] = [...titles.map((title) => title.bytes), session.lineBytes(1)];
  const lines: string[] = [...session.lines, session.line(1), titles[0]?.text ?? "", ...words];
  const places: number[] = [session.lineCount, session.utf16Column(1, 2), session.byteColumn(1, 2), bytes.length, lines.length];
  const work: Work = session.work;
  console.log(output, kinds, keys, entries, places, work.scanned + work.folded + work.built);
  session[Symbol.dispose]();
  // @ts-expect-error: a line is a number
  session.insert("1", "X:1");
  // @ts-expect-error: a session is opened by `open`
  new Session();
  // @ts-expect-error: a report is not changed by a name
  session.report = report;
}

async function both(): Promise<void> {
  if (!isSupported() || !Session.isSupported() || !WorkerSession.isSupported()) return;
  const engine: Engine = await Engine.load(new URL("file:///a.wasm"));
  const session: Session = await Session.open({ engine });
  await edit(session);
  const worker: WorkerSession = await WorkerSession.open({ module: "https://example.org/a.wasm" });
  const output: Uint8Array | null = await worker.output(1);
  const numbers: number[] = await worker.numbers;
  const faults: Fault[] = await worker.faults;
  const tokens: Token[] = await worker.tokens(1);
  const play: Entry[][] | null = await worker.play(1);
  // @ts-expect-error: a worker promises
  const report: Report = worker.insert(1, "");
  try {
    session.close();
    await worker.close();
  } catch (error) {
    if (error instanceof OutOfMemory || error instanceof TrapError) console.log(error.name, output, numbers, faults, tokens, play, report);
  }
  console.log(engine.isStopped, engine.memoryBytes);
}

void both();
