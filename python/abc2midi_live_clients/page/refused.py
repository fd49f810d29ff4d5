"""How the server refuses what a window asks."""

from typing import Any

from ..common.json_object import Json


class Refused(Exception):
    """What a window may not do: an HTTP status, a sentence, and what else the answer has."""

    def __init__(self, status: int, sentence: str, **more: Any):
        super().__init__(sentence)
        self.status = status
        self.answer: Json = {"error": sentence, **more}
