// Where a book opens: at the line that the address names, as `#line=12`, else at its first tune.

/** The line to begin at, counted from 0.
 * @type {(hash: string, lines: number, tunes: import("../link/finding_rows.js").TuneRow[]) => number} */
export function openingLine(hash, lines, tunes) {
  const found = /^#line=(\d{1,7})$/.exec(hash);
  return found ? Math.max(0, Math.min(lines, Number(found[1])) - 1) : tunes[0]?.[0] ?? 0;
}
