// Tries fingerings without a browser. The argument is the folder of the page's scripts. Each test prints a line, `ok` or `FAILED`, with
// its name. The wanted values are those of charts for a whistle in D and of tables of frets; C is 60.

import { pathToFileURL } from "node:url";

import { run, same } from "../testing.mjs";

const { PLAYERS, fingeringWords } = await import(pathToFileURL(`${process.argv[2]}/music/fingerings.js`));

/** The holes of a whistle as charts have them: x closed, / half, o open, + blown harder. */
const holes = (key) => {
  const found = PLAYERS.whistle.of(key);
  return found && found.holes.map((hole) => ({ 1: "x", 0.5: "/", 0: "o" })[hole]).join("") + (found.isHigh ? "+" : "");
};
const place = (player, key) => {
  const found = PLAYERS[player].of(key);
  return found && [found.strings[found.string], found.fret, found.finger].join(" ");
};

const tests = {
  "a whistle in D has two octaves"() {
    same([62, 64, 66, 67, 69, 71, 73].map(holes), ["xxxxxx", "xxxxxo", "xxxxoo", "xxxooo", "xxoooo", "xooooo", "oooooo"]);
    same([63, 65, 68, 70, 72].map(holes), ["xxxxx/", "xxxx/o", "xx/ooo", "x/oooo", "oxxooo"]);
    same([74, 76, 81, 85].map(holes), ["oxxxxx+", "xxxxxo+", "xxoooo+", "oooooo+"]);
    same([61, 86].map(holes), [null, null]);
  },

  "a fiddle has four strings a fifth apart, and four fingers"() {
    same([55, 57, 59, 60, 62, 64, 66, 67, 69].map((key) => place("fiddle", key)), ["G 0 0", "G 2 1", "G 4 2", "G 5 3", "D 0 0", "D 2 1", "D 4 2", "D 5 3", "A 0 0"]);
    same([83, 84, 54].map((key) => place("fiddle", key)), ["E 7 4", null, null]);
    same([76, 78, 84, 93, 94].map((key) => place("mandolin", key)), ["E 0 0", "E 2 1", "E 8 ", "E 17 ", null]);
  },

  "a guitar has its notes on the highest string that has them"() {
    same([40, 43, 45, 50, 55, 58, 59, 62, 64, 67].map((key) => place("guitar", key)), ["E 0 0", "E 3 3", "A 0 0", "D 0 0", "G 0 0", "G 3 3", "B 0 0", "B 3 3", "E 0 0", "E 3 3"]);
    same([68, 69, 71, 83, 84, 39].map((key) => place("guitar", key)), ["E 4 4", "E 5 ", "E 7 ", "E 19 ", null, null]);
  },

  "fingerings in words"() {
    same([fingeringWords(PLAYERS.whistle.of(81)), fingeringWords(PLAYERS.fiddle.of(66)), fingeringWords(PLAYERS.fiddle.of(69)), fingeringWords(null)], [
      "closed, closed, open, open, open, open, blown harder", "D string, fret 4, finger 2", "A string, open", "not in its range",
    ]);
  },
};

await run(tests);
process.exit(0);
