"""The MIDI files of a whole book in a .zip, named by their tunes as `2 Two Sisters by the Weir.mid`."""

import io
import re
import zipfile
from collections.abc import Iterable

NOT_IN_NAMES = re.compile('[/\\\\:*?"<>|\x00-\x1f\x7f-\x9f\ud800-\udfff]')  # of some system's files; midi_names.js has the same
MOST = 60  # characters of a title: a name has at most 255 bytes


def midi_name(number: int, title: str) -> str:
    """The name of the file of a tune."""
    name = re.sub(" +", " ", NOT_IN_NAMES.sub(" ", title)).strip(" .")[:MOST].strip(" .")
    return f"{number} {name}.mid" if name else f"{number}.mid"


def zip_of(files: Iterable[tuple[int, str, bytes]]) -> bytes:
    """A .zip of files: the number and the title of each, and its bytes."""
    data = io.BytesIO()
    with zipfile.ZipFile(data, "w", zipfile.ZIP_DEFLATED) as archive:
        for number, title, content in files:
            archive.writestr(midi_name(number, title), content)
    return data.getvalue()
