// Tries find and replace, the colours of tokens, and the remarks on faults, without a browser. The folder of the
// page's scripts is the argument. Each test prints a line, `ok` or `FAILED`, with its name.

import { pathToFileURL } from "node:url";

import { run, same } from "../testing.mjs";

const from = (name) => import(pathToFileURL(`${process.argv[2]}/${name}.js`));
const { partsOf } = await from("editor/token_colours");
const { Matches, matchesIn, matchesNothing, replacedIn, sought } = await from("editor/search_matches");
const { grouped } = await from("editor/fault_remarks");
const { Search, replacedWords } = await from("editor/search_bar");
const { Text } = await from("text/text");

/** A text of these lines, which the server has. */
function opened(...lines) {
  const text = new Text();
  text.open(lines);
  return text;
}

const what = (words, { matchesCase = false, isWhole = false, isRegular = false } = {}) => sought({ words, matchesCase, isWhole, isRegular });
const textsOf = (line, ...words) => matchesIn(line, what(...words)).map(({ start, texts }) => [start, texts[0]]);
const replaced = (line, sought, put) => replacedIn(line, matchesIn(line, sought), put, sought);
const coloured = (line, rows) => partsOf(line, tokensOf(rows)).map(([start, end, name]) => [line.slice(start, end), name]);

/** Tokens by a word for each, `Note:0-2`; `/1` after it is a part of a chord. */
const tokensOf = (rows) => rows.split(" ").map((row) => {
  const [, kind, from, to, depth] = /^(\w+):(\d+)-(\d+)(?:\/(1))?$/.exec(row);
  return { from: Number(from), to: Number(to), kind, depth: Number(depth ?? 0) };
});

const tests = {
  "matches by case, by whole words, and by expressions"() {
    same(textsOf("The the [the]", "THE"), [[0, "The"], [4, "the"], [9, "the"]]);
    same(textsOf("The the", "the", { matchesCase: true }), [[4, "the"]]);
    same(textsOf("an anan Än an2 (an)", "an", { isWhole: true }), [[0, "an"], [16, "an"]]);
    same(textsOf("a.b axb", "a.b"), [[0, "a.b"]]);
    same(textsOf("C2 D C4", "[A-G](\\d)", { isRegular: true }), [[0, "C2"], [5, "C4"]]);
    same(textsOf("abc", "x*", { isRegular: true }), []);
    same(textsOf("C2|D", "C2|", { isRegular: true }), [[0, "C2"]]);
    same(textsOf("𝄞a", ".", { isRegular: true }), [[0, "𝄞"], [2, "a"]]);
  },

  "an expression of places matches them, and another one only characters"() {
    const placesOf = (line, words, more = {}) => matchesIn(line, what(words, { isRegular: true, ...more })).map(({ start, end }) => [start, end]);
    same([placesOf("CDE", "^"), placesOf("CDE", "$"), placesOf("", "^$"), placesOf("C", "^$")], [[[0, 0]], [[3, 3]], [[0, 0]], []]);
    same([placesOf("a b", "\\b"), placesOf("CDC", "(?=C)"), placesOf("CDC", "(?<!^)(?=[(C)](?:D|$))")], [[[0, 0], [1, 1], [2, 2], [3, 3]], [[0, 0], [2, 2]], [[2, 2]]]);
    same([placesOf("CDE", "^", { isWhole: true }), placesOf("a^b", "^", { isRegular: false }), placesOf("CDE", "()")], [[[0, 0]], [[1, 2]], []]);
    same([placesOf("CDE", "^C"), placesOf("CDE", "(?=D)x*"), placesOf("CDE", "[^]"), placesOf("CDE", "|")], [[[0, 1]], [], [[0, 1], [1, 2], [2, 3]], []]);
    same([replaced("CDE", what("^", { isRegular: true }), "% "), replaced("C D", what("$", { isRegular: true }), "|")], [["% CDE"], ["C D|"]]);
    same(["x*", "|", "^", "(?=C)", "C", "^ *$"].map((words) => matchesNothing(what(words, { isRegular: true }))), [true, true, false, false, false, true]);
  },

  "what comes of replacing all is said as it is"() {
    const words = [[0, false], [2, false], [1, true], [2, true]].map(([count, isOther]) => replacedWords(count, isOther, "Ctrl-Z"));
    same(words, ["Nothing found, so nothing is replaced.", "Nothing is replaced: the new words are those that were found.",
      "1 replaced. Ctrl-Z takes it back.", "2 replaced. Ctrl-Z takes them back."]);
  },

  "the search goes on after what replaced a match, also if that has several lines"() {
    const found = [], expression = what("a", { isRegular: true }), text = opened("x a a");
    const search = Object.assign(Object.create(Search.prototype), {
      here: { ...matchesIn("x a a", expression)[0], line: 0 }, matches: { what: expression }, put: { value: "" }, sheet: { text }, isHere: () => true,
      change: ([{ put }], place) => found.push([put, place]), seek: (place) => found.push(place),
    });
    for (const put of ["bc", "1\\n23"]) {
      search.put.value = put;
      search.replaceOne();
    }
    const [one, two] = [{ line: 0, column: 4 }, { line: 1, column: 2 }];
    same(found, [[["x bc a"], one], one, [["x 1", "23 a"], two], two]);
  },

  "a bad expression has a name"() {
    const wrongs = ["(", "[a", "*"].map((words) => {
      try {
        return what(words, { isRegular: true }) && "none";
      } catch (error) {
        return error.message.replace(/: .+/, ": why");
      }
    });
    same(wrongs, Array(3).fill("This is no regular expression: why"));
  },

  "replacements"() {
    same(replaced("C D C", what("c"), "$1"), ["$1 D $1"]);
    const groups = what("([A-G])(\\d)", { isRegular: true });
    same(replaced("C2 D E4", groups, "$2$1$$$&"), ["2C$C2 D 4E$E4"]);
    same(replaced("a|b|c", what("\\|", { isRegular: true }), "|\\n"), ["a|", "b|", "c"]);
    same(replaced("a", what("(?<name>a)", { isRegular: true }), "$<name>$7"), ["a$7"]);
  },

  "the count follows edits, and goes on in slices"() {
    const lines = Array.from({ length: 3000 }, (_, n) => (n % 3 ? "x" : "aa"));
    const matches = new Matches(lines, what("a"));
    same([matches.count(-1), matches.at < 300, matches.count(Infinity), matches.total], [false, true, true, 2000]);
    const now = ["a", ...lines.slice(3)];
    matches.edited(now, 0, 3, 1);
    same([matches.isDone, matches.total, matches.before(1, 1)], [true, 1999, 2]);
    matches.edited(["a", ...Array(2997).fill("aaa")], 1, 2998, 2997);
    same([matches.isDone, matches.count(Infinity), matches.total], [false, true, 1 + 3 * 2997]);
  },

  "the next match, the one before, and around the ends"() {
    const matches = new Matches(["ab", "", "b b"], what("b"));
    const next = (line, column, isForward) => {
      const { line: at, start } = matches.next({ line, column }, isForward);
      return [at, start];
    };
    same([next(0, 0, true), next(0, 2, true), next(2, 1, true), next(2, 3, true)], [[0, 1], [2, 0], [2, 2], [0, 1]]);
    same([next(2, 2, false), next(2, 0, false), next(0, 1, false)], [[2, 0], [0, 1], [2, 2]]);
    same(new Matches(["a"], what("b")).next({ line: 0, column: 0 }, true), null);
  },

  "colours of a line of music"() {
    const bars = "BarLine:0-2 Quoted:2-6 Note:6-8 Blank:8-9 Dynamic:9-12 Note:12-13 BarLine:13-14 Ending:14-16 Blank:16-17 Grace:17-21 Note:21-22 BarLine:22-25 Comment:25-30";
    same(coloured('|:"Am"C2 !p!D|[1 {ab}c:|]% end', bars), [
      ["|:", "barline"], ['"Am"', "chord"], ["!p!", "decoration"], ["|", "barline"], ["[1", "barline"], ["{ab}", "grace"], [":|]", "barline"], ["% end", "comment"],
    ]);
    const marks = "InlineField:0-5 Quoted:5-12 NoEffect:12-13 Note:13-14 Blank:14-15 NoEffect:15-16 Note:16-17 Blank:17-18 Chord:18-26 Note:19-20/1 Quoted:20-23/1 Note:23-24/1 Note:24-25/1 BarLine:26-28";
    same(coloured('[K:D]"^slow"~A .B [C"x"EG]|]', marks), [
      ["[K:D]", "field"], ['"^slow"', "string"], ["~", "decoration"], [".", "decoration"], ['"x"', "chord"], ["|]", "barline"],
    ]);
    same(coloured("yuCTD *$&!", "Space:0-1 NoEffect:1-2 Note:2-3 NoEffect:3-4 Note:4-5 Blank:5-6 NoEffect:6-7 NoEffect:7-8 BadByte:8-9 Unclosed:9-10"), [["u", "decoration"], ["T", "decoration"]]);
    same(coloured(`|${"C".repeat(5000)}`, "BarLine:0-1"), []);
  },

  "colours of other lines"() {
    same(coloured("T:Kesh % jig", "TitleField:0-7 Comment:7-12"), [["T:", "field"], ["Kesh ", "value"], ["% jig", "comment"]]);
    same([coloured("w:la la", "OtherField:0-7"), coloured("M:6/8", "OtherField:0-5")], [[["w:", "field"], ["la la", "lyric"]], [["M:", "field"], ["6/8", "value"]]]);
    same([coloured("X:", "NumberField:0-2"), coloured("%%MIDI", "Directive:0-6"), coloured("|:C", "FreeText:0-3")], [[["X:", "field"]], [["%%MIDI", "directive"]], []]);
  },

  "equal remarks are one, with their count"() {
    const lines = ["C- D-", "E -", "& C&"];
    const faults = [[0, 1, 2, "LooseTie"], [0, 4, 5, "LooseTie"], [1, 2, 3, "LooseTie"], [2, 0, 1, "BadByte"], [2, 0, 1, "Overlay", "words"]];
    same(grouped(faults, lines), [{ fault: faults[0], sign: "-", count: 3 }, { fault: faults[3], sign: "&", count: 1 }, { fault: faults[4], sign: "&", count: 1 }]);
  },

  "letters that ABC does not have are one remark"() {
    const lines = ["C é è &", "и"], faults = [[0, 2, 3, "BadByte"], [0, 4, 5, "BadByte"], [0, 6, 7, "BadByte"], [1, 0, 1, "BadByte"]];
    same(grouped(faults, lines), [{ fault: faults[0], sign: "é è и", count: 3 }, { fault: faults[2], sign: "&", count: 1 }]);
    const odd = ["\udc01\udc02\udc01"], those = [0, 1, 2].map((n) => [0, n, n + 1, "BadByte"]);
    same(grouped(those, odd), [{ fault: those[0], sign: "U+0001 (control) U+0002 (control)", count: 3 }]);
  },

  "signs that nobody sees are named, and each kind with a mend of its own is one remark"() {
    const lines = ["“C”\u00a0\u200b\u0093é"], faults = [0, 2, 3, 4, 5, 6].map((n) => [0, n, n + 1, "BadByte"]);
    const signs = grouped(faults, lines).map(({ sign, count }) => [sign, count]);
    same(signs, [["“ ”", 2], ["U+00A0 (no-break space)", 1], ["U+200B (zero-width space) U+0093 (control) é", 3]]);
  },
};

await run(tests);
process.exit(0);
