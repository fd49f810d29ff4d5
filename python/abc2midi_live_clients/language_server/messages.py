"""The messages of the Language Server Protocol, on standard input and output."""

import json
import sys
from typing import BinaryIO, Optional

from ..common.json_object import Json

# The protocol's numbers.
PARSE_ERROR, INVALID_REQUEST, METHOD_NOT_FOUND, INVALID_PARAMS = -32700, -32600, -32601, -32602
INTERNAL_ERROR = -32603
NOT_INITIALIZED, REQUEST_FAILED, REQUEST_CANCELLED = -32002, -32803, -32800
INCREMENTAL = 2  # changes of documents
WHOLE = 1  # changes of documents that are sent as their whole text
MODULE, NAMESPACE, CLASS, ARRAY = 2, 3, 5, 18  # the kinds of symbols
ERROR, WARNING, INFO = 1, 2, 3  # of diagnostics and messages
VALUE, KEYWORD, SNIPPET = 12, 14, 15  # the kinds of completions
AS_SNIPPET = 2  # the format of a completion's text

LONGEST_MESSAGE = 1 << 30
DIGITS = len(str(LONGEST_MESSAGE))
LONGEST_LINE = 4096  # of the header of a message
PIECE = 1 << 20  # bytes that are read at once



class Failure(Exception):
    """The answer to a request that has no result: a number and a sentence."""


class BadMessage(Exception):
    """A message that cannot be read, so that the next one cannot be found."""


def read_message(stream: BinaryIO) -> Optional[bytes]:
    """The next message as its bytes, or None at the end of the input."""
    length = None
    for line in iter(lambda: stream.readline(LONGEST_LINE), b""):
        name, _, value = line.partition(b":")
        if name.strip().lower() == b"content-length":
            length = length_of(value.strip())
        elif not line.strip() and length is not None:
            return read_bytes(stream, length)
    return None


def length_of(value: bytes) -> int:
    """The length of a message as it is written."""
    if not value.isdigit():
        raise BadMessage("the length of a message is no number")
    if len(value) > DIGITS or int(value) > LONGEST_MESSAGE:
        raise BadMessage(f"a message is too long; at most {LONGEST_MESSAGE} bytes are read")
    return int(value)


def read_bytes(stream: BinaryIO, length: int) -> Optional[bytes]:
    """That many bytes, or None if the input ends before. Memory is taken as they come."""
    data = bytearray()
    while len(data) < length:
        piece = stream.read(min(PIECE, length - len(data)))
        if not piece:
            return None
        data += piece
    return bytes(data)


def write_message(message: Json) -> None:
    """Writes a message on standard output."""
    data = json.dumps(message).encode()
    sys.stdout.buffer.write(b"Content-Length: %d\r\n\r\n" % len(data) + data)
    sys.stdout.buffer.flush()
