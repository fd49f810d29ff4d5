// The names of files of a tune, as `2 Two Sisters by the Weir.mid`.

const NOT_IN_NAMES = /[/\\:*?"<>|\x00-\x1f\x7f-\x9f\ud800-\udfff]/gu; // of some system's files; midi_names.py has the same
const MOST = 60; // characters of a title: a name has at most 255 bytes

/** Words without the spaces and dots at their begin and their end.
 * @type {(words: string) => string} */
const stripped = (words) => words.replace(/^[ .]+|[ .]+$/g, "");

/** The name of the MIDI file of a tune.
 * @type {(number: number, title: string) => string} */
export const midiName = (number, title) => fileName(number, title, "mid");

/** The name of a file of a tune.
 * @type {(number: number, title: string, ending: string) => string} */
export function fileName(number, title, ending) {
  const words = stripped(title.replace(NOT_IN_NAMES, " ").replace(/ +/g, " "));
  const name = stripped([...words].slice(0, MOST).join(""));
  return name ? `${number} ${name}.${ending}` : `${number}.${ending}`;
}
