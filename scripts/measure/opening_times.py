"""The times to open a book and to edit a line in it: by the program, and by the JavaScript package in Node and in Chromium."""

from __future__ import annotations

import json
import subprocess
import sys
import tempfile
import time
from pathlib import Path
from typing import NamedTuple

TOP = Path(__file__).resolve().parent.parent.parent
sys.path[:0] = [str(TOP / folder) for folder in ("tests/javascript", "tests/page/static", "tests/clients/shared")]
import browser  # noqa: E402
import common  # noqa: E402
from file_server import FileServer  # noqa: E402

PACKAGE = TOP / "out/web/abc2midi-live"
AT_ONCE = 100  # edits in a batch
BATCHES = 500
ROUNDS = 5
OTHER_LINE = "|:gfed BAFA|D2FA dAFA|B2dB AFDF|A4 d4|"  # instead of the eighth line of a reel
SCRIPT = """
export async function times(address, book, at, other, atOnce, batches, rounds) {
  const { Engine, Session } = await import(address);
  const lines = [other, new TextDecoder().decode(book).split("\\n")[at - 1]];
  const found = [];
  for (let n = 0; n < rounds; n += 1) {
    let from = performance.now();
    const engine = await Engine.load();
    const loaded = performance.now() - from;
    const session = await Session.open({ engine });
    from = performance.now();
    session.insert(1, book);
    const opened = performance.now() - from;
    const memory = engine.memoryBytes;
    let shortest = Infinity;
    for (let batch = 0; batch < batches / rounds; batch += 1) {
      from = performance.now();
      for (let edit = 0; edit < atOnce; edit += 1) session.replace(at, at, lines[edit % 2]);
      shortest = Math.min(shortest, performance.now() - from);
    }
    found.push([loaded, opened, shortest / atOnce, memory]);
    session.close();
  }
  return found;
}
"""


class Times(NamedTuple):
    """Milliseconds to load the module, to open a book and to edit a line; and the bytes of the memory."""

    loading: float
    opening: float
    edit: float
    memory: int


def make_book(folder: Path, reels: int) -> int:
    """Puts a book of reels into a folder, and the script that Node and Chromium run. Returns the number of a line of music in its middle."""
    (folder / "book.abc").write_bytes(subprocess.run([TOP / "scripts/measure/make_book", str(reels)], capture_output=True, check=True).stdout)
    (folder / "times.mjs").write_text(SCRIPT)
    return reels // 2 * 16 + 8


def shortest(found: list[list[float]]) -> Times:
    """The shortest times of each kind."""
    loading, opening, edit, memory = zip(*found)
    return Times(min(loading), min(opening), min(edit), int(max(memory)))


def of_program(program: str, book: Path, at: int) -> Times:
    """The times of the program. It loads no module."""
    return Times(0, min(opening_of_program(program, book) for _ in range(ROUNDS)), edit_of_program(program, book, at), 0)


def opening_of_program(program: str, book: Path) -> float:
    """How long the program takes for a book without commands."""
    with tempfile.TemporaryDirectory() as folder:
        since = time.monotonic()
        subprocess.run([program, "--dir", folder, str(book)], stdin=subprocess.DEVNULL, stdout=subprocess.DEVNULL, check=True)
        return (time.monotonic() - since) * 1000


def edit_of_program(program: str, book: Path, at: int) -> float:
    """How long the program takes for an edit in the shortest batch."""
    lines = [OTHER_LINE, book.read_text("utf-8").split("\n")[at - 1]]
    commands = "".join(f"replace {at} {at} 1\n{lines[edit % 2]}\n" for edit in range(AT_ONCE)).encode()
    times = []
    with tempfile.TemporaryDirectory() as folder:
        words = [program, "--dir", folder, str(book)]
        with subprocess.Popen(words, stdin=subprocess.PIPE, stdout=subprocess.PIPE) as child:
            assert child.stdin and child.stdout
            child.stdout.readline()
            for _ in range(BATCHES):
                since = time.monotonic()
                child.stdin.write(commands)
                child.stdin.flush()
                for _ in range(AT_ONCE):
                    child.stdout.readline()
                times.append(time.monotonic() - since)
            child.stdin.close()
    return min(times) * 1000 / AT_ONCE


def in_node(folder: Path, at: int) -> Times:
    """The times in Node."""
    words = json.dumps([f"file://{PACKAGE}/index.js", None, at, OTHER_LINE, AT_ONCE, BATCHES, ROUNDS])
    script = f"import {{ readFileSync }} from 'node:fs'; const words = {words}; words[1] = readFileSync('{folder}/book.abc');"
    script += f"const {{ times }} = await import('file://{folder}/times.mjs'); console.log(JSON.stringify(await times(...words)));"
    command = [*common.node(), "--input-type=module", "-e", script]
    return shortest(json.loads(subprocess.run(command, capture_output=True, text=True, check=True).stdout))


def in_chromium(folder: Path, at: int) -> Times:
    """The times in Chromium, in a page that was just loaded."""
    (folder / "index.html").write_text("<!doctype html><title>times</title>")
    (folder / "package").symlink_to(PACKAGE)
    server = FileServer(folder)
    script = "const [at, other, atOnce, batches, rounds, done] = arguments; (async () => { const { times } = await import('/times.mjs');"
    script += "const book = new Uint8Array(await (await fetch('/book.abc')).arrayBuffer());"
    script += "return times('/package/index.js', book, at, other, atOnce, batches, rounds); })().then(done, (error) => done(error.stack));"
    driver = browser.started()
    try:
        driver.get(server.origin)
        found = driver.execute_async_script(script, at, OTHER_LINE, AT_ONCE, BATCHES, ROUNDS)
    finally:
        driver.quit()
        server.stop()
    assert isinstance(found, list), found
    return shortest(found)
