"""The names of voices and parts: where each is defined and used, and how it becomes another one."""

import re
from collections.abc import Iterator
from typing import Any, NamedTuple, Optional

from abc2midi_live import TokenKind

from ..common.json_object import Json
from .document import Document, TuneLines
from .messages import INVALID_PARAMS, REQUEST_FAILED, Failure
from .text_changes import Position, position_of
from .token_texts import TokenText
from .workspace import Workspace

VOICE, PART = "V", "P"
BLANKS = " \t"
PARTS = frozenset("ABCDEFGHIJKLMNOPQRSTUVWXYZ")
NOT_IN_NAMES = frozenset(" \t\r\n%]")
SCORE = re.compile(r"(?:%%|I:)[ \t]*(?:score|staves)(?=[ \t({\[])")  # a line that places voices on staves
NOT_IN_SCORES = frozenset("()[]{}|*")
WORD_OF_SCORE = re.compile(r"[^\s()\[\]{}|*%]+")
READ, WRITE = 2, 3  # the kinds of a highlight


class Name(NamedTuple):
    """A name of a voice or part in a field or a `%%score`: the field's letter, the name, its line and characters, and the token of the field."""

    letter: str
    text: str
    line: int
    start: int
    end: int
    is_in_header: bool
    token: TokenText
    is_in_score: bool = False

    @property
    def key(self) -> tuple[str, str]:
        """What names of one voice or part share."""
        return self.letter, self.text

    def range(self, document: Document) -> Json:
        """The range of the name."""
        return document.range(self.line, self.start, self.line, self.end)


def names_in(document: Document, tune: TuneLines) -> Iterator[Name]:
    """Yields the names of voices and parts in a tune, in the order of the text."""
    is_in_header = True
    for line in range(tune.start, tune.end):
        for token in document.tokens(line):
            is_in_header = is_in_header and token.kind != TokenKind.KEY_FIELD
            if token.kind in (TokenKind.OTHER_FIELD, TokenKind.INLINE_FIELD):
                yield from names_of(token, is_in_header)


def names_of(token: TokenText, is_in_header: bool) -> Iterator[Name]:
    """Yields the names in a field: the first word of a `V:`, the first letter of a `P:` in a body, the letters of one in a header."""
    is_inline = token.kind == TokenKind.INLINE_FIELD
    text, start = (token.text[1:-1], token.start + 1) if is_inline else (token.text, token.start)
    value = text[2:].lstrip(BLANKS)
    start += len(text) - len(value)
    if text.startswith("V:"):
        word = value.replace("\t", " ").partition(" ")[0]
        if word:
            yield Name(VOICE, word, token.line, start, start + len(word), is_in_header, token)
    elif text.startswith("P:"):
        for place, letter in enumerate(value if is_in_header else value[:1]):
            if letter in PARTS:
                yield Name(PART, letter, token.line, start + place, start + place + 1, is_in_header, token)


def names_in_scores(document: Document, tune: TuneLines) -> Iterator[Name]:
    """Yields the names of voices in the lines of a tune that place voices on staves."""
    for line in range(tune.start, tune.end):
        for token in document.tokens(line):
            score = SCORE.match(token.text) if token.start == 0 else None
            end = token.text.find("%", score.end()) if score else -1  # a comment
            for word in WORD_OF_SCORE.finditer(token.text, score.end(), end if end >= 0 else len(token.text)) if score else ():
                yield Name(VOICE, word[0], line, word.start(), word.end(), False, token, True)


class NamesHere(NamedTuple):
    """The names of the tune at a place, and the one at the place."""

    all: list[Name]
    here: Name

    def same(self) -> list[Name]:
        """The names of the same voice or part."""
        return [name for name in self.all if name.key == self.here.key]

    def definition(self) -> Name:
        """Where the voice is declared first, or the part begins first."""
        fields = (name for name in self.same() if not name.is_in_score)
        return next((name for name in fields if not (name.letter == PART and name.is_in_header)), self.here)


def names_at(document: Document, position: Position) -> Optional[NamesHere]:
    """Returns the names of the tune at a place, if one of them is there."""
    line, character = document.character(position)
    tune = document.tune_lines_at(line)
    names = sorted((*names_in(document, tune), *names_in_scores(document, tune)), key=lambda name: name[2:4]) if tune else []
    near = [name for name in names if name.line == line and name.start <= character <= name.end]
    here = near[-1] if near else None  # between two names the one after the place
    return NamesHere(names, here) if here else None


def asked(workspace: Workspace, params: Any) -> tuple[Document, str, Optional[NamesHere]]:
    """Returns the document of a request, its address, and the names at its place."""
    document = workspace.document(params)
    return document, params["textDocument"]["uri"], names_at(document, position_of(params["position"]))


def definition(workspace: Workspace, params: Any) -> Optional[Json]:
    """Where a voice or a part is defined."""
    document, uri, names = asked(workspace, params)
    return {"uri": uri, "range": names.definition().range(document)} if names else None


def references(workspace: Workspace, params: Any) -> list[Json]:
    """Where a voice or a part is named."""
    document, uri, names = asked(workspace, params)
    with_definition = (params.get("context") or {}).get("includeDeclaration", True)
    found = names.same() if names else []
    return [
        {"uri": uri, "range": name.range(document)}
        for name in found
        if with_definition or names and name != names.definition()
    ]


def highlights(workspace: Workspace, params: Any) -> list[Json]:
    """The names of the same voice or part."""
    document, _, names = asked(workspace, params)
    found = names.same() if names else []
    return [
        {"range": name.range(document), "kind": WRITE if names and name == names.definition() else READ} for name in found
    ]


def prepare_rename(workspace: Workspace, params: Any) -> Optional[Json]:
    """The name that a rename would change."""
    document, _, names = asked(workspace, params)
    return {"range": names.here.range(document), "placeholder": names.here.text} if names else None


def rename(workspace: Workspace, params: Any) -> Json:
    """The edits that give a voice or a part another name."""
    document, uri, names = asked(workspace, params)
    if not names:
        raise Failure(REQUEST_FAILED, "no voice and no part is named here")
    new = params["newName"]
    check_name(names, new)
    return workspace.edit(uri, [{"range": name.range(document), "newText": new} for name in names.same()])


def check_name(names: NamesHere, new: Any) -> None:
    """Raises Failure if a voice or a part cannot get a name."""
    letter = names.here.letter
    if letter == PART and new not in PARTS:
        raise Failure(INVALID_PARAMS, "the name of a part is one letter from A to Z")
    if letter == VOICE and (not isinstance(new, str) or not new or NOT_IN_NAMES & set(new)):
        raise Failure(INVALID_PARAMS, "the name of a voice has no blanks, no % and no ]")
    if any(name.is_in_score for name in names.same()) and NOT_IN_SCORES & set(new):
        raise Failure(INVALID_PARAMS, "the name of a voice in %%score has no bracket, no | and no *")
    if new != names.here.text and any(name.key == (letter, new) for name in names.all):
        raise Failure(INVALID_PARAMS, f"the tune has a {'voice' if letter == VOICE else 'part'} {new}")
