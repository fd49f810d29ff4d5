"""The faults or hints that a reader knows already."""

from collections import Counter
from typing import Generic, TypeVar, Union

from abc2midi_live import Fault

from ..hints import Hint

Remark = TypeVar("Remark", Fault, Hint)
Item = TypeVar("Item")


class KnownRemarks(Generic[Remark]):
    """The faults or hints of the last text."""

    def __init__(self) -> None:
        self.places: list[tuple[bytes, int, str]] = []  # of each: its line, its column and its name
        self.sentences: list[str] = []  # of each hint

    def marked(self, remarks: list[Remark], lines: list[bytes]) -> list[tuple[Remark, bool]]:
        """Remarks, each with whether it is new: no line of the same text had it before. A hint in a changed line is not new
        either if its sentence stays, for many are about a whole tune."""
        places = [(lines[remark.line - 1], remark.column, remark.name) for remark in remarks]
        sentences = [sentence_of(remark) for remark in remarks]
        known = Counter(self.places)
        are_new = [not take_one(known, place) for place in places]
        gone = Counter(sentence for place, sentence in zip(self.places, self.sentences) if take_one(known, place) and sentence)
        self.places, self.sentences = places, sentences
        return [
            (remark, is_new and not take_one(gone, sentence)) for remark, is_new, sentence in zip(remarks, are_new, sentences)
        ]


def sentence_of(remark: Union[Fault, Hint]) -> str:
    """The sentence of a hint. A fault brings none."""
    return remark.text if isinstance(remark, Hint) else ""


def take_one(counts: Counter[Item], item: Item) -> bool:
    """Takes one item away, and returns whether there was one."""
    if counts[item] <= 0:
        return False
    counts[item] -= 1
    return True
