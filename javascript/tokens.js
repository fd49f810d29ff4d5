// The tokens of a line.

// The kinds by their numbers in the module.
const KINDS = [
  "Other", "Note", "Rest", "BarRest", "Chord", "InlineField", "BarLine", "Ending", "Tuplet", "BrokenRhythm", "Tie", "Dynamic", "Blank",
  "Quoted", "Decoration", "Grace", "Space", "NoEffect", "BadByte", "Unclosed", "Comment", "NumberField", "TitleField", "KeyField",
  "OtherField", "Directive", "FreeText",
];

/** The kind of a number of the module. */
export function kindOf(number) {
  return KINDS[number] ?? KINDS[0];
}
