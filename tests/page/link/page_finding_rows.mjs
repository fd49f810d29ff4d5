// For test_rows.py: makes new rows of old ones, as windows do, and finds what is different, as the page without a server does. The folder of
// the page's scripts is the argument, and a list of { rows, changes: [{ edit, difference }] } comes in. For each a line goes out: the rows
// after all its changes, and the differences.

import { readFileSync } from "node:fs";
import { pathToFileURL } from "node:url";

const { changed, difference, without } = await import(pathToFileURL(`${process.argv[2]}/link/finding_rows.js`));

function follow(rows, changes) {
  let now = rows;
  const differences = changes.map(({ edit, difference: told }) => {
    const { start, stop, lines } = edit, moved = without(now, start, stop, lines.length - (stop - start));
    now = changed(now, edit, told);
    return difference(moved, now);
  });
  return [now, differences];
}

for (const { rows, changes } of JSON.parse(readFileSync(0, "utf8"))) console.log(JSON.stringify(follow(rows, changes)));
