// What the tests of the page's scripts in node share: how they compare, how they report, and numbers at random.

import { isDeepStrictEqual } from "node:util";

/** Throws unless two values are equal, in all that they have. */
export function same(found, wanted) {
  if (!isDeepStrictEqual(found, wanted)) throw new Error(`${JSON.stringify(found)}, wanted ${JSON.stringify(wanted)}`);
}

/** A source of numbers from 0 and below a limit, the same ones for a seed: by the generator mulberry32. */
export function chances(seed) {
  let state = Math.imul(seed + 1, 2654435761) >>> 0;
  return (limit) => {
    state = (state + 0x6d2b79f5) >>> 0;
    let mixed = Math.imul(state ^ (state >>> 15), state | 1);
    mixed ^= mixed + Math.imul(mixed ^ (mixed >>> 7), mixed | 61);
    return Math.floor((((mixed ^ (mixed >>> 14)) >>> 0) / 2 ** 32) * limit);
  };
}

/** Runs tests by name, each followed by `after`. A line reports each: `ok` or `FAILED`, with its name. */
export async function run(tests, after = () => {}) {
  for (const [name, test] of Object.entries(tests)) {
    try {
      await test();
      console.log(`ok ${name}`);
    } catch (error) {
      console.log(`FAILED ${name}: ${error.stack}`);
    }
    after();
  }
}
