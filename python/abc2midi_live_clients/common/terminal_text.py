"""Prints for a terminal: the text of a book without control characters, numbers of things, lists of names."""

MOST_NAMES = 8  # in a line


def printable(text: str) -> str:
    """A text without the characters that a terminal obeys."""
    return "".join(character if character.isprintable() else "?" for character in text)


def count_of(number: int, thing: str) -> str:
    """A number of things."""
    return f"{number} {thing}{'' if number == 1 else 's'}"


def list_of(names: list[str]) -> str:
    """Names in a line; of many the first ones."""
    more = len(names) - MOST_NAMES
    return ", ".join(names[:MOST_NAMES] + ([f"and {more} more"] if more > 0 else []))
