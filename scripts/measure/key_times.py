"""Measuring how long key strokes take in a page, from the key till the page has painted its answer."""

from __future__ import annotations

import random
from collections.abc import Sequence
from typing import Any, NamedTuple

import browser

TUNE = "X:%d\nT:The Kesh, %d\nR:jig\nM:6/8\nL:1/8\nQ:3/8=112\nK:G\n|:~G3 GAB|~A3 ABd|edd gdd|edB dBA|\n~G3 GAB|~A3 ABd|edd gdB|AGF G3:|\n"
KEYS = """
const [pauses, done] = arguments;
const area = document.querySelector("textarea"), status = document.getElementById("status");
let scores = 0;
new MutationObserver(() => (scores += 1)).observe(document.getElementById("score"), { childList: true });
const act = async () => {
  const found = [];
  for (const [n, pause] of pauses.entries()) {
    const since = performance.now();
    const answered = new Promise((then) => new MutationObserver((_, observer) => {
      observer.disconnect();
      requestAnimationFrame(() => {
        const { port1, port2 } = new MessageChannel(); // its message comes after the frame
        port1.onmessage = () => then(performance.now() - since);
        port2.postMessage(null);
      });
    }).observe(status, { childList: true, characterData: true, subtree: true }));
    document.execCommand("insertText", false, n % 10 === 9 ? "\\n" : n % 4 === 3 ? "|" : "c");
    const typed = performance.now() - since;
    found.push([typed, await answered, parseFloat(/([\\d.]+) ms/.exec(status.textContent)?.[1])]);
    await new Promise((then) => setTimeout(then, pause));
  }
  return [found, scores];
};
area.focus();
act().then(done, (error) => done(String(error)));
"""
KEYS_TYPED = 40
SAME = [220, 120] * (KEYS_TYPED // 2)  # milliseconds between a frame and the next key
CHANCE = random.Random(1)
VARIED = [pause + CHANCE.uniform(0, 1000 / 60) for pause in SAME]  # up to a frame more
DOWN = "\ue015"
UNCLOCKED = "disable-frame-rate-limit", "disable-gpu-vsync"  # options of a browser that waits for no screen


class Stroke(NamedTuple):
    """The milliseconds of a key: till it is in the text box, till its answer is painted, and what the server says of its edit."""

    typed: float
    painted: float
    in_server: float


def book_of(tunes: int) -> str:
    """A book of jigs."""
    return "\n".join(TUNE % (n, n) for n in range(1, tunes + 1))


def go_to_a_tune(driver: Any, tunes: int) -> None:
    """Waits till the page shows all tunes, and puts the caret into the music of the one in the middle."""
    browser.wait(lambda: driver.execute_script("return document.getElementById('tally').textContent") == str(tunes))
    place = tunes // 2
    driver.execute_script(f"document.querySelector('#list').scrollTop = {place * 30}")
    browser.wait(lambda: driver.execute_script(f"const row = document.getElementById('tune-{place}'); row?.click(); return Boolean(row)"))
    browser.wait(lambda: driver.execute_script("return document.getElementById('score').childElementCount"))
    driver.execute_script("document.querySelector('textarea').focus()")
    browser.type_keys(driver, DOWN * 8)


def strokes(driver: Any, pauses: Sequence[float]) -> tuple[list[Stroke], int]:
    """Types a key before each pause. Returns the times, and how often the score was drawn meanwhile."""
    found, scores = driver.execute_async_script(KEYS, list(pauses))
    return [Stroke(*(float(time or 0) for time in times)) for times in found], int(scores)
