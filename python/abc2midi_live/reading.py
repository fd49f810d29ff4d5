"""Reading a tune book, of which no more is read than a book may have."""

import errno
import os
from typing import BinaryIO

from .errors import BookTooLarge
from .lines import MOST_BOOK_BYTES


def bytes_of_book(file: BinaryIO) -> bytes:
    """The bytes of an open book. Raises `BookTooLarge` if there are too many, also of a pipe or a device, which has no size."""
    size = os.fstat(file.fileno()).st_size
    book = b"" if size > MOST_BOOK_BYTES else file.read(MOST_BOOK_BYTES + 1)
    if max(size, len(book)) > MOST_BOOK_BYTES:
        raise BookTooLarge(errno.EFBIG, f"File too large: a book has at most {MOST_BOOK_BYTES >> 20} MB")
    return book
