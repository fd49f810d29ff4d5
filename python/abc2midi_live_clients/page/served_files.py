"""The files of the page. Its scripts and styles have an address that stays the same from start to start, so a browser caches them."""

import hmac
import re
from pathlib import Path
from typing import Optional

PACKAGE = Path(__file__).resolve().parents[1]
INSTALLED = PACKAGE / "page_files"  # an installation has the files of page/ there
FILES = INSTALLED if INSTALLED.is_dir() else PACKAGE.parents[1] / "page"
NOT_SERVED = "static"  # the folder of what only the page without a server has
KINDS = {".html": "text/html; charset=utf-8", ".css": "text/css; charset=utf-8", ".js": "text/javascript; charset=utf-8"}
WORDS = PACKAGE / "common/completion.json"  # that may be written
LINK = re.compile(rb'(<link rel="stylesheet" href="|<script(?: type="module")? src=")')
CACHED_FOR_A_YEAR = {"Cache-Control": "private, max-age=31536000, immutable"}

File = tuple[bytes, str]  # its bytes and its type


class ServedFiles:
    """The files by their names. The page has the name "" and the key of its book."""

    def __init__(self, key: str):
        self.by_name: dict[str, File] = {path.relative_to(FILES).as_posix(): (path.read_bytes(), KINDS[path.suffix]) for path in files_of_page()}
        self.by_name[WORDS.name] = WORDS.read_bytes(), "application/json"
        page, kind = self.by_name.pop("index.html")
        self.folder = cached_folder(key, self.by_name)
        page = LINK.sub(rb"\1/files/%b/" % self.folder.encode(), page)
        self.by_name[""] = page.replace(b"KEY OF THE BOOK", key.encode()), kind

    def cached(self, path: str) -> Optional[File]:
        """The file at an address that a browser caches, or None."""
        asked = re.fullmatch("/files/([0-9a-f]{64})/(.+)", path)
        return self.by_name.get(asked[2]) if asked and hmac.compare_digest(asked[1], self.folder) else None


def files_of_page() -> list[Path]:
    """The scripts, the styles and the pages."""
    return [path for path in FILES.rglob("*") if path.suffix in KINDS and path.parent.name != NOT_SERVED]


def cached_folder(key: str, files: dict[str, File]) -> str:
    """The name of the folder of the files that a browser caches. It is another one for other files, so a browser takes no old ones.
    Nobody can guess it without the key of the book. So whoever takes the port cannot put other scripts into the browser's cache."""
    found = hmac.new(bytes.fromhex(key), b"files", "sha256")
    for name, (data, kind) in sorted(files.items()):
        found.update(f"\n{name} {kind} {len(data)}\n".encode() + data)
    return found.hexdigest()
