// Tries transposition, without a browser. The folder of the page's scripts is the argument. Each test prints a line, `ok` or `FAILED`, with
// its name. With a second argument it transposes the texts that its input has, with the rows of their tokens, by each number of semitones there.

import { readFileSync } from "node:fs";
import { pathToFileURL } from "node:url";

import { run, same } from "../testing.mjs";

const [, , folder, answer] = process.argv;
const { barsOf, firstKey, transposed } = await import(pathToFileURL(`${folder}/tunes/transpose.js`));
const { keyOf, semitonesTo, signatureOf, tonicsOf, valueOf } = await import(pathToFileURL(`${folder}/tunes/key_field.js`));

if (answer) {
  const { tokensOf } = await import(pathToFileURL(`${folder}/link/tokens_and_plays.js`));
  const { texts, semitones } = JSON.parse(readFileSync(0, "utf8"));
  for (const { lines, rows, range } of texts) {
    const known = lines.map((text, n) => ({ text, tokens: tokensOf(rows[n]) }));
    const part = range && barsOf(known, range);
    console.log(JSON.stringify(semitones.map((count) => transposed(known, { semitones: count }, count % 12 ? part : range))));
  }
  process.exit(0);
}

/** A line of tokens: the text of each, with its kind, and the parts of a chord after it. */
function line(...pieces) {
  let text = "";
  const tokens = [];
  for (const [kind, word, ...parts] of pieces) {
    const from = text.length;
    text += word;
    tokens.push({ from, to: text.length, kind, depth: 0 });
    let at = from + 1;
    for (const part of parts) {
      tokens.push({ from: at, to: at + part.length, kind: "Note", depth: 1 });
      at += part.length;
    }
  }
  return { text, tokens };
}

const key = (value) => line(["KeyField", `K:${value}`]);
const notes = (...words) => line(...words.map((word) => [word === "|" ? "BarLine" : word === "-" ? "Tie" : "Note", word]));
const part = (line, from, last, to) => ({ start: { line, column: from }, end: { line: last, column: to } });

/** The lines that some become, and what is left. */
function moved(lines, semitones, tonic, range) {
  const { lines: found, left } = transposed(lines, { semitones, tonic }, range);
  return left.length ? [found, left] : found;
}

const tests = {
  "notes move by the letters of their key, and accidentals stay where they were"() {
    same(moved([key("G"), notes("G", "A", "F", "^c2", "=f/", "B,,", "c'")], 2), ["K:A", "ABG^d2=g/C,d'"]);
    same(moved([key("G"), notes("G", "F", "_B")], -2), ["K:F", "FE_A"]);
    same(moved([key("C"), notes("C", "B", "c", "b")], 12), ["K:C", "cbc'b'"]);
    same(moved([key("Gb"), notes("C", "c")], -12), ["K:Gb", "C,C"]);
  },

  "a key gets few sharps or flats, and keeps its mode and its words"() {
    same(moved([key(" Am clef=bass")], 1), ["K: Bbm clef=bass"]);
    same(moved([key("Ddor")], 5), ["K:Gdor"]);
    same(moved([key("E minor")], 3), ["K:G minor"]);
    same([moved([key("C")], 6), moved([key("C")], 6, "Gb"), moved([key("C")], 1, "C#")], [["K:F#"], ["K:Gb"], ["K:C#"]]);
    same(moved([key("Gb"), notes("G", "c")], -1), ["K:F", "FB"]);
  },

  "a key in which each note can be written is better than one of fewer sharps or flats"() {
    same(moved([key("Ebm"), notes("E", "^e")], 5), ["K:Abm", "A^a"]);
  },

  "later keys move by as many letters as the first one"() {
    same(moved([key("C"), line(["InlineField", "[K:G]"], ["Note", "G"])], 6), ["K:F#", "[K:C#]c"]);
    same(moved([key("C"), line(["InlineField", "[K:D]"], ["Note", "D"])], 6), ["K:F#", "[K:Ab]A"]);
  },

  "no key is as C, and properties alone are no key"() {
    same(moved([key("none"), notes("C", "^F")], 2), ["K:D", "D^G"]);
    same(moved([key(""), key("bass"), key("octave=-1"), notes("E")], 2), ["K:D", "K:bass", "K:octave=-1", "F"]);
    same(moved([key("bass"), notes("E")], 2), ["K:D bass", "F"]);
  },

  "listed accidentals move too, wherever they are listed"() {
    same(moved([key("D ^g")], 2), ["K:E ^a"]);
    same(moved([key("D clef=bass =c")], 2), ["K:E clef=bass =d"]);
    same(moved([key("D exp _b ^f bass")], 2), ["K:E exp ^f^g bass"]);
    same(moved([key("^f")], -5), ["K:G exp ^c^f"]);
  },

  "names of chords move, other words do not, and words that look like names are reported"() {
    const quoted = (word) => line(["KeyField", "K:G"], ["Quoted", `"${word}"`]);
    const name = (word, semitones) => transposed([quoted(word)], { semitones }).lines[0].replace(/^K:[A-G][#b]?/, "");
    const names = ["D7", "F#m7", "Bb/D", "Em", "C#dim", "Gsus4", "(Am)", "C6/9", "Cmaj7/E"];
    same(names.map((word) => name(word, 2)), ['"E7"', '"G#m7"', '"C/E"', '"F#m"', '"D#dim"', '"Asus4"', '"(Bm)"', '"D6/9"', '"Dmaj7/F#"']);
    same([name("^Am", 2), name("Fine", 2), name("D.C.", 2), name("B", 3)], ['"^Am"', '"Fine"', '"D.C."', '"D"']);
    same(transposed([quoted("Am;G")], { semitones: 2 }).left, [{ line: 0, text: '"Am;G"', why: "this is no name of a chord" }]);
  },

  "chords and grace notes move; what is between them stays"() {
    const music = line(["Chord", "[CEG]2", "C", "E", "G"], ["Blank", " "], ["Grace", "{gf}"], ["Note", "A"], ["BarLine", "|"], ["Comment", "% A"]);
    same(moved([key("C"), music], 2), ["K:D", "[DFA]2 {ag}B|% A"]);
  },

  "each voice has its key, and the next tune begins anew"() {
    const voice = (name) => line(["OtherField", `V:${name}`]), inline = line(["InlineField", "[K:A]"], ["Note", "A"]);
    const lines = [line(["NumberField", "X:1"]), voice("1"), voice("2"), key("C"), inline, voice("2"), notes("C", "^F"), line(["NumberField", "X:2"]), key("F"), notes("F")];
    same(moved(lines, 1), ["X:1", "V:1", "V:2", "K:Db", "[K:Bb]B", "V:2", "D=G", "X:2", "K:Gb", "G"]);
  },

  "what cannot be written is reported, and stays; notes of no known key stay"() {
    same(moved([key("C"), notes("^^B", "C")], 1, "C#"), [["K:C#", "^^BC"], [{ line: 1, text: "^^B", why: "it would need three accidentals" }]]);
    same(moved([key("HP"), notes("A")], 2), [["K:HP", "A"], [{ line: 0, text: "K:HP", why: "this key is not known, so its notes stay" }]]);
    same(moved([notes("A", "B")], 2), [["AB"], [{ line: 0, text: "", why: "the notes have no K: before them" }]]);
  },

  "a part begins with its key, and the old one follows"() {
    const tune = [key("G bass"), notes("G", "|", "A", "B", "|", "c", "|")];
    same(moved(tune, 2, undefined, part(1, 2, 1, 4)), ["K:G bass", "G|[K:A]Bc|[K:G]c|"]);
    same(transposed(tune, { semitones: 2 }, part(1, 2, 1, 4)).range, part(1, 2, 1, 9));
    same(moved(tune, 12, undefined, part(1, 2, 1, 3)), ["K:G bass", "G|aB|c|"]);
    same(moved([key("none"), notes("C", "|", "D", "|", "E")], 2, undefined, part(1, 0, 1, 1)), ["K:none", "[K:D]D|[K:none]D|E"]);
    same(moved([...tune, key("D"), notes("d")], 2, undefined, part(1, 5, 1, 7)), ["K:G bass", "G|AB|[K:A]d|", "K:D", "d"]);
    same(moved(["V:1", "V:2"].flatMap((name) => [line(["OtherField", name]), ...(name === "V:2" ? [key("C")] : [])]).concat(line(["InlineField", "[V:1]"], ["Note", "C"]), line(["InlineField", "[V:2]"], ["Note", "E"]), line(["InlineField", "[V:1]"], ["Note", "D"])), 2, undefined, part(3, 0, 4, 6)), ["V:1", "V:2", "K:C", "[V:1][K:D]D", "[V:2][K:D]F", "[V:1][K:C]D"]);
  },

  "what reaches over the edge of a part is reported"() {
    const why = (...words) => transposed([key("C"), notes(...words)], { semitones: 2 }, part(1, words.join("").length - 1, 1, 9)).left.map((one) => one.why);
    same([why("^C", "C"), why("C", "-", "C"), why("C", "C")], [["an accidental reaches over the edge of the selection"], ["a tie reaches over the edge of the selection"], []]);
    const after = (...lines) => transposed([key("C"), notes("^C"), ...lines, notes("C")], { semitones: 2 }, part(lines.length + 2, 0, lines.length + 2, 9)).left.length;
    same([after(), after(line(["OtherField", "P:B"])), after(key("C")), after(line(["OtherField", "Q:60"]))], [1, 0, 0, 1]);
  },

  "the bars of a part"() {
    const lines = [notes("C", "|", "D", "E", "|", "F", "|")];
    same([barsOf(lines, part(0, 3, 0, 4)), barsOf(lines, part(0, 2, 0, 5)), barsOf(lines, part(0, 6, 0, 6))], [part(0, 2, 0, 4), part(0, 2, 0, 4), part(0, 5, 0, 6)]);
  },

  "the way to a key"() {
    const to = (from, tonic, direction) => semitonesTo(keyOf(from), tonic, direction);
    same([to("G", "A", "near"), to("G", "F", "near"), to("C", "F#", "near"), to("Am", "C", "down"), to("A", "G", "up"), to("C", "C", "up"), to("C", "C", "down")], [2, -2, 6, -9, 10, 12, -12]);
    same(tonicsOf(keyOf("Am")), ["C", "C#", "D", "D#", "E", "Eb", "F", "F#", "G", "G#", "A", "A#", "Ab", "B", "Bb"]);
    same(valueOf(firstKey([key("G"), line(["InlineField", "[K:Em]"], ["Note", "E"])], part(1, 0, 1, 7))), "Em");
    same(["Gfoo", "HP", "G#", "c"].map(keyOf), [null, null, null, null]);
    same(["", "none", "D  dor ^g bass", "^f ^c"].map((value) => signatureOf(keyOf(value))), ["none", "none", "D  dor ^g", "^f ^c"]);
  },
};

await run(tests);
process.exit(0);
