"""The types of the page's scripts, which are in their comments. Skipped if `tsc` (Debian's node-typescript) is not installed."""

import shutil
import subprocess
import unittest
from pathlib import Path

import trial

TSC = shutil.which("tsc")
SCRIPTS = trial.TOP / "page"
NEWER = Path(__file__).resolve().parent / "newer.d.ts"


class Types(unittest.TestCase):
    is_slow = True

    @unittest.skipIf(not TSC, "tsc is not installed")
    def test_types(self) -> None:
        """No script has an error."""
        words = ["--allowJs", "--checkJs", "--strict", "--noUnusedLocals", "--noUnusedParameters", "--noEmit", "--skipLibCheck"]
        words += ["--target", "es2022", "--module", "es2022", "--moduleResolution", "node", "--lib", "es2022,dom,dom.iterable"]
        names = sorted(str(path) for path in SCRIPTS.rglob("*.js") if path.parent.name != "static")  # tests/javascript/run looks at these
        ran = subprocess.run([TSC or "tsc", *words, *names, str(NEWER)], cwd=SCRIPTS, capture_output=True, text=True, timeout=trial.SECONDS)
        self.assertEqual((ran.returncode, ran.stdout), (0, ""))
