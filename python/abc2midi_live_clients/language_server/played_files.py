"""Files that are played: they go with the client, also if that is killed."""

import subprocess
import tempfile
from pathlib import Path
from typing import Optional

# Ends with its input, which the client holds open. It removes the folder that the client could not remove.
SWEEPER = 'while read -r line; do :; done; rm -rf -- "$0"'


class PlayedFiles:
    """A folder that begins with the first file."""

    def __init__(self) -> None:
        self.folder: Optional[tempfile.TemporaryDirectory[str]] = None
        self.sweeper: Optional[subprocess.Popen[bytes]] = None

    def write(self, name: str, data: bytes) -> str:
        """Writes a file, and returns its path. Some systems remove old temporary folders: then another one begins."""
        if self.folder and not Path(self.folder.name).is_dir():
            self.close()
        if not self.folder:
            self.folder = tempfile.TemporaryDirectory(prefix="abc2midi_live-")
            words = ["/bin/sh", "-c", SWEEPER, self.folder.name]
            self.sweeper = subprocess.Popen(words, stdin=subprocess.PIPE, stdout=subprocess.DEVNULL, start_new_session=True)
        path = Path(self.folder.name, name)
        path.unlink(missing_ok=True)  # a player may still read the old one
        path.write_bytes(data)
        return str(path)

    def close(self) -> None:
        """Removes the folder."""
        if self.folder:
            self.folder.cleanup()
            self.folder = None
        if self.sweeper:
            self.sweeper.communicate()
            self.sweeper = None
