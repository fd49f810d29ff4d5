"""Tries the module and the archive of the package."""

from __future__ import annotations

import gzip
import json
import re
import shutil
import subprocess
import tarfile
import unittest
from pathlib import Path

import common

PRINT_EXPORTS = """
const module = new WebAssembly.Module(require("fs").readFileSync(process.argv[1]));
console.log(JSON.stringify([WebAssembly.Module.imports(module), WebAssembly.Module.exports(module)]));
"""
FIRST_FILE = """
import { Session } from "abc2midi-live";
import { WorkerSession } from "abc2midi-live/worker";
const session = await Session.open(), worker = await WorkerSession.open();
session.setText("X:1\\nK:C\\nCDEF|\\n");
await worker.setText("X:1\\nK:C\\nCDEF|\\n");
console.log(Buffer.from(session.output(1)).toString("hex"), Buffer.from(await worker.output(1)).toString("hex"));
session.close();
await worker.close();
"""


class Module(common.Room):
    @unittest.skipUnless(common.node(), "Node is not installed")
    def test_has_the_calls_of_the_header_and_the_heap_alone(self) -> None:
        header = (common.TOP / "c/abc2midi_live.h").read_text("utf-8")
        calls = set(re.findall(r"\b(abc_live_[a-z_]+)\(", header))
        imports, exports = json.loads(self.lines_of([*common.node(), "-e", PRINT_EXPORTS, str(common.module)])[0])
        self.assertEqual(imports, [])
        self.assertEqual({it["name"] for it in exports if it["kind"] == "function"}, calls | {"malloc", "free"})
        self.assertEqual([it["name"] for it in exports if it["kind"] != "function"], ["memory"])

    def test_is_small(self) -> None:
        content = Path(str(common.module)).read_bytes()
        self.assertLessEqual(len(content), 500_000)
        self.assertLessEqual(len(gzip.compress(content, 9)), 200_000)


class Archive(common.Room):
    """What `npm pack` makes, installed as a user would."""

    @unittest.skipUnless(shutil.which("npm"), "npm is not installed")
    def test_has_the_files_of_the_package_and_runs(self) -> None:
        version = subprocess.run([common.TOP / "scripts/build/version"], capture_output=True, text=True, check=True).stdout.strip()
        archive = common.package.parent / f"abc2midi-live-{version}.tgz"
        with tarfile.open(archive) as opened:
            names = {name.removeprefix("package/") for name in opened.getnames()}
        sources = {path.name for path in (common.TOP / "javascript").iterdir() if path.suffix in (".js", ".ts", ".json", ".md")}
        self.assertEqual(names, sources | {"faults.js", "abc2midi_live.wasm"})
        self.assertEqual(json.loads((common.package / "package.json").read_text("utf-8"))["version"], version)
        self.install(archive)

    def install(self, archive: Path) -> None:
        """Installs the archive into a folder and makes a MIDI file there."""
        (self.folder / "package.json").write_text('{"type": "module"}')
        (self.folder / "first.mjs").write_text(FIRST_FILE)
        self.lines_of(["npm", "install", "--offline", "--no-audit", "--no-fund", str(archive)])
        if not common.node():
            self.skipTest("Node is not installed")
        found = self.lines_of([*common.node(), "first.mjs"])[0].split()
        self.assertEqual(found, [found[0]] * 2)
        self.assertTrue(found[0].startswith("4d546864"), found[0])  # MThd
