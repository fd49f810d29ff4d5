// Prints where faults are in lines, as the page without a server marks them. The argument is the folder of the page; standard input
// has a list of [line, unit, name, tokens].

import { readFileSync } from "node:fs";
import { pathToFileURL } from "node:url";

const { spanOf } = await import(pathToFileURL(`${process.argv[2]}/static/fault_spans.js`));
console.log(JSON.stringify(JSON.parse(readFileSync(0, "utf-8")).map((asked) => spanOf(...asked))));
