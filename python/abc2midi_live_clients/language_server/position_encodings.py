"""Units in which an editor counts the characters of a line."""

from typing import Any, NamedTuple


class Encoding(NamedTuple):
    """An encoding of positions: its name in the protocol, its codec, and the bytes of a unit."""

    name: str
    codec: str
    size: int

    def data(self, text: str) -> bytes:
        """The bytes of a text. JSON may bring halves of surrogate pairs; they pass too."""
        return text.encode(self.codec, "surrogatepass")

    def text(self, data: bytes) -> str:
        """The text of bytes. In UTF-16 two halves of a pair that meet become one character."""
        return data.decode(self.codec, "surrogatepass")

    def length(self, text: str) -> int:
        """How many units a text has."""
        return len(text) if text.isascii() else len(self.data(text)) // self.size

    def before(self, text: str, unit: int) -> str:
        """The text before a unit. Inside a character it is that before the character, but for a half in UTF-16."""
        return text[:unit] if text.isascii() else self.text(self.cut(text, unit)[0])

    def splice(self, first: tuple[str, int], put: str, last: tuple[str, int]) -> str:
        """A text between what precedes a unit of one text and what follows a unit of another."""
        return self.text(self.cut(*first)[0] + self.data(put) + self.cut(*last)[1])

    def cut(self, text: str, unit: int) -> tuple[bytes, bytes]:
        """The bytes of a text before a unit, and from it on."""
        data, at = self.data(text), unit * self.size
        while self.size == 1 and data[at : at + 1] and data[at] & 0xC0 == 0x80:
            at -= 1
        return data[:at], data[at:]


UTF8 = Encoding("utf-8", "utf-8", 1)
UTF16 = Encoding("utf-16", "utf-16-le", 2)
UTF32 = Encoding("utf-32", "utf-32-le", 4)
BY_NAME = {encoding.name: encoding for encoding in (UTF8, UTF16, UTF32)}


def encoding_for(capabilities: Any) -> Encoding:
    """The first encoding that an editor offers and that is known here. An editor that offers none counts in UTF-16."""
    try:
        offered = capabilities["general"]["positionEncodings"]
    except (KeyError, TypeError):
        return UTF16
    names = offered if isinstance(offered, list) else []
    return next((BY_NAME[name] for name in names if isinstance(name, str) and name in BY_NAME), UTF16)
