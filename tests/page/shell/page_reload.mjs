// Tries that a page of which a part does not arrive is loaded again, without a browser. The folder of the
// page's scripts is the argument. Each test prints a line, `ok` or `FAILED`, with its name.

import { readFileSync } from "node:fs";
import { runInNewContext } from "node:vm";

import { run, same } from "../testing.mjs";

const again = readFileSync(`${process.argv[2]}/shell/reload_on_failure.js`, "utf8");

const tests = {
  "a page of which a part does not arrive is loaded again three times, and later once more if it was whole meanwhile"() {
    const stored = new Map(), loads = [];
    const storage = { getItem: (key) => stored.get(key) ?? null, setItem: (key, value) => stored.set(key, value), removeItem: (key) => stored.delete(key) };
    const Part = class {}, Other = class {};
    const load = (...missing) => {
      const acts = {}, location = { reload: () => loads.push("again") };
      const addEventListener = (name, act) => (acts[name] = act);
      const setTimeout = (act, pause) => loads.push(pause) && act();
      runInNewContext(again, { addEventListener, location, setTimeout, sessionStorage: storage, HTMLScriptElement: Part, HTMLLinkElement: Part });
      for (const target of missing) acts.error({ target });
      acts.load();
    };
    load(new Other());
    for (let n = 0; n < 4; n += 1) load(new Part(), new Part());
    same(loads.splice(0), [1000, "again", 5000, "again", 20000, "again"]);
    load();
    load(new Part());
    same(loads, [1000, "again"]);
  },
};

await run(tests);
process.exit(0);
