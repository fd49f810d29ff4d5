"""The folder of the JavaScript package, which a page can use as it is."""

from __future__ import annotations

import json
import shutil
import subprocess
from pathlib import Path

TOP = Path(__file__).resolve().parent.parent.parent
SOURCES = TOP / "javascript"
FAULTS = TOP / "python/abc2midi_live_clients/common/faults.json"
MODULE = "abc2midi_live.wasm"


def sentences() -> str:
    """The module `faults.js`: the sentences of each fault of the program, by its name."""
    faults = [fault for fault in json.loads(FAULTS.read_text("utf-8")) if fault["of"] == "program"]
    rows = {fault["name"]: {"wrong": fault["wrong"], "instead": fault["instead"]} for fault in faults}
    text = json.dumps(rows, ensure_ascii=False, indent=2)
    return f"// The sentences of the faults. scripts/package/npm made this file.\n\nexport const SENTENCES = {text};\n"


def manifest() -> str:
    """The package.json, with the version of the program."""
    version = subprocess.run([TOP / "scripts/build/version"], capture_output=True, text=True, check=True).stdout.strip()
    fields = json.loads((SOURCES / "package.json").read_text("utf-8"))
    return json.dumps({"name": fields["name"], "version": version, **fields}, indent=2) + "\n"


def assemble(folder: Path, module: Path) -> None:
    """Puts the package into an empty folder."""
    shutil.rmtree(folder, ignore_errors=True)
    folder.mkdir(parents=True)
    for path in [*SOURCES.glob("*.js"), *SOURCES.glob("*.d.ts"), SOURCES / "README.md"]:
        shutil.copyfile(path, folder / path.name)
    shutil.copyfile(module, folder / MODULE)
    (folder / "faults.js").write_text(sentences(), "utf-8")
    (folder / "package.json").write_text(manifest(), "utf-8")
