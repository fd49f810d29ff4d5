// Tries the names of keys, without a browser. The folder of the
// page's scripts is the argument. Each test prints a line, `ok` or `FAILED`, with its name.

import { pathToFileURL } from "node:url";

import { run, same } from "../testing.mjs";

const from = (name) => import(pathToFileURL(`${process.argv[2]}/${name}.js`));
const { commandOf, keysOf, withKeys } = await from("base/shortcut_names");

const tests = {
  "names of keys on a Mac"() {
    same(["Ctrl-S", "Ctrl-Shift-S", "Ctrl-H", "Ctrl-Space", "Ctrl-Shift-Space", "Shift-F8"].map((name) => keysOf(name, true)),
      ["⌘S", "⌘⇧S", "⌥⌘F", "Ctrl-Space", "Ctrl-Shift-Space", "⇧F8"]);
    same([keysOf("Ctrl-S", false), withKeys("Save (Ctrl-S), or Ctrl-Space", true)], ["Ctrl-S", "Save (⌘S), or Ctrl-Space"]);
  },

  "a command has Command on a Mac, and Ctrl elsewhere"() {
    const key = { key: "a", code: "KeyA", ctrlKey: false, metaKey: false, altKey: false };
    const held = [{}, { ctrlKey: true }, { metaKey: true }, { ctrlKey: true, metaKey: true }];
    same([true, false].map((onMac) => held.map((keys) => commandOf({ ...key, ...keys }, onMac))), [["", "", "a", ""], ["", "a", "", ""]]);
    same([commandOf({ ...key, key: "S", ctrlKey: true }, false), commandOf({ ...key, key: "Home", ctrlKey: true }, false)], ["s", "Home"]);
  },

  "a keyboard without Latin letters has the commands of the places of its keys"() {
    const key = (letter, code, more) => commandOf({ key: letter, code, ctrlKey: true, metaKey: false, altKey: false, ...more }, false);
    same([key("ы", "KeyS"), key("Ы", "KeyS"), key("φ", "KeyF"), key("я", "KeyZ"), key("ひ", "KeyV")], ["s", "s", "f", "z", "v"]);
    same([key("z", "KeyY"), key("ü", "BracketLeft"), key("ś", "KeyS", { altKey: true })], ["z", "ü", "ś"]); // QWERTZ, and AltGr of a Polish keyboard
    same(commandOf({ key: "ƒ", code: "KeyF", ctrlKey: false, metaKey: true, altKey: true }, true), "f");
  },
};

await run(tests);
process.exit(0);
