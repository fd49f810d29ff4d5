// Looks for the matches of a regular expression apart from the page, since that may take longer than anyone waits.
//
// The page sends { lines } at first, { edit: { start, stop, put } } after each edit of them, and { number, what, gaps } to look for
// something in some lines. The answers are { isReady } at first, then { number, from, found, isDone } for one stretch of lines after
// another. Another search ends the one before.

import { matchesIn } from "./search_matches.js";

const SLICE = 30; // milliseconds of work between two answers

/** @type {string[]} */
let lines = [];
let present = 0; // the number of the present search

/** Looks through a stretch of lines, and goes on later with those that are left.
 * @param {number} number
 * @param {import("./search_matches.js").What} what
 * @param {[number, number][]} gaps */
function look(number, what, gaps) {
  if (number !== present) return;
  const [[from, to], ...rest] = gaps, until = performance.now() + SLICE, found = [];
  let at = from;
  for (; at < to && performance.now() < until; at += 1) found.push(matchesIn(lines[at], what));
  const left = at < to ? /** @type {[number, number][]} */ ([[at, to], ...rest]) : rest;
  postMessage({ number, from, found, isDone: !left.length });
  if (left.length) setTimeout(() => look(number, what, left));
}

/** @typedef {{ start: number, stop: number, put: string[] }} Edit
 * @param {{ lines?: string[], edit?: Edit, number: number, what?: import("./search_matches.js").What, gaps: [number, number][] }} message */
function hear({ lines: all, edit, number, what, gaps }) {
  if (all) lines = all;
  if (edit) lines = lines.slice(0, edit.start).concat(edit.put, lines.slice(edit.stop));
  if (!what) return;
  present = number;
  if (gaps.length) look(number, what, gaps);
}

globalThis.onmessage = (/** @type {MessageEvent} */ { data }) => hear(data);

postMessage({ isReady: true });
