// Where a fault is in a line of the page: to the end of the token at it, as in the served page.

const WITH_THEIR_LINE = new Set(["BadLine", "BadProgram", "TextBlock", "FreeMusic", "NoTune", "LoneReturns"]);

/** The begin and the end of a fault that begins at a unit of a line. Of each token of the line there are four numbers, of which the
 * first are its columns. It has one character at least.
 * @type {(line: string, start: number, name: string, tokens: number[]) => [start: number, end: number]} */
export function spanOf(line, start, name, tokens) {
  if (WITH_THEIR_LINE.has(name)) return [start, line.length];
  const letter = line.codePointAt(start), least = start + (letter === undefined ? 0 : String.fromCodePoint(letter).length);
  let end = least;
  for (let at = 0; at < tokens.length; at += 4) if (tokens[at] <= start && start < tokens[at + 1]) end = tokens[at + 1]; // the innermost comes last
  return [start, Math.max(least, end)];
}
