// Which kinds of hints are hidden, as the browser keeps it: for a book in its store, for all books in a cookie. Each book has a port of its own,
// so the store of one book is not that of another, but a cookie is for all ports.

const NAME = "abc2midi_live_hidden_hints";
const WHILE = 400 * 24 * 60 * 60; // seconds: the longest for which browsers keep a cookie

/** Names of kinds.
 * @typedef {{ book: Set<string>, all: Set<string> }} Kinds */

/** The kinds that are hidden in a book, and in all books.
 * @type {(id: string) => Kinds} */
export function keptKinds(id) {
  const cookie = document.cookie.split("; ").find((one) => one.startsWith(`${NAME}=`)) ?? "";
  return { book: setOf(stored(id)), all: setOf(cookie.slice(NAME.length + 1)) };
}

/** @type {(id: string, kinds: Kinds) => void} */
export function keepKinds(id, { book, all }) {
  document.cookie = `${NAME}=${[...all].join(".")}; path=/; max-age=${WHILE}; SameSite=Strict`;
  try {
    localStorage.setItem(`${NAME} ${id}`, [...book].join("."));
  } catch {
    // a browser that stores nothing
  }
}

/** @type {(id: string) => string} */
function stored(id) {
  try {
    return localStorage.getItem(`${NAME} ${id}`) ?? "";
  } catch {
    return "";
  }
}

/** @type {(names: string) => Set<string>} */
const setOf = (names) => new Set(names.split(".").filter((name) => /^\w+$/.test(name)));
