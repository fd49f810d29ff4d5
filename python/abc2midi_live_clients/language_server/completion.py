"""Completion: what may be written at a place."""

from typing import Any, NamedTuple, Optional

from abc2midi_live import TokenKind

from ..common.json_object import Json
from .completed_values import TABLE, Item, decorations, programs, values_of
from .document import Document
from .messages import AS_SNIPPET, KEYWORD, SNIPPET, VALUE
from .text_changes import position_of
from .voice_and_part_names import BLANKS, VOICE, names_in
from .workspace import Workspace

TUNE = "X:{}\nT:${{1:title}}\nM:${{2:4/4}}\nL:${{3:1/8}}\nK:${{4:C}}\n$0"
VOICE_SNIPPET = "V:${1:1} clef=${2|treble,bass,alto,tenor|}$0"
IN_HEADER = (
    TokenKind.NUMBER_FIELD,
    TokenKind.TITLE_FIELD,
    TokenKind.OTHER_FIELD,
    TokenKind.DIRECTIVE,
    TokenKind.COMMENT,
)
PROGRAM = "%%MIDI program "


class Situation(NamedTuple):
    """Where something is written: the line up to there, whether it is in a header, the next free number if a tune may begin there, and
    the voices of the tune so far."""

    before: str
    in_header: bool
    number: Optional[int]
    voices: list[str]


def completion(workspace: Workspace, params: Any) -> list[Json]:
    """What may be written at a place. The order to show is in `sortText`. The list itself is in the order of the alphabet, because
    Emacs takes the first item that begins with what is written for that very text."""
    document = workspace.document(params)
    line, character = document.character(position_of(params["position"]))
    found = completions(situation(document, line, character))
    with_snippets = workspace.client.has_snippets
    return [
        item_of(item, document.range(line, item.start, line, character), place, with_snippets)
        for item, place in sorted((item, place) for place, item in enumerate(found))
    ]


def item_of(item: Item, where: Json, place: int, with_snippets: bool) -> Json:
    """Returns an item as the protocol has it."""
    is_snippet = bool(item.snippet) and with_snippets
    text = item.snippet if is_snippet else item.text
    return {
        "label": item.label or item.text.rstrip(" "),
        "detail": item.meaning,
        "kind": SNIPPET if is_snippet else VALUE if item.start else KEYWORD,
        "sortText": f"{place:03}",
        "textEdit": {"range": where, "newText": text},
        **({"filterText": f"{item.text} {item.label}"} if item.label else {}),
        **({"insertTextFormat": AS_SNIPPET} if is_snippet else {}),
    }


def situation(document: Document, line: int, character: int) -> Situation:
    """Returns where a place of a document is."""
    tunes = document.book.tunes()
    start = max((tune.line for tune in tunes if tune.line <= line), default=line)
    in_tune = start < line or any(tune.line == line for tune in tunes)
    in_tune = in_tune and document.blank_line(start, line) == line
    kinds = {token.kind for each in range(start, line) for token in document.tokens(each)}
    numbers = {tune.number for tune in tunes}
    free = next(number for number in range(max(numbers, default=0) + 1, 2**31) if number not in numbers)
    tune = document.tune_lines_at(line) if in_tune else None
    names = (name for name in names_in(document, tune) if name.line < line) if tune else ()
    voices = list(dict.fromkeys(name.text for name in names if name.letter == VOICE))
    is_header = not in_tune or kinds <= set(IN_HEADER)
    return Situation(document.lines[line][:character], is_header, None if in_tune else free, voices)


def completions(where: Situation) -> list[Item]:
    """Returns what may be written somewhere."""
    before = where.before
    if before.startswith(PROGRAM):
        return programs(before, len(PROGRAM))
    begun = value_begun(before)
    if begun:
        letter, start = begun
        return values_of(letter, before, start, where.voices)
    if "!" in before and before.rpartition("!")[2].isalpha() or before.endswith("!"):
        return decorations(before, before.rindex("!"))
    if len(before) > 1 and not before.startswith("%"):
        return []
    return fields(where)


def fields(where: Situation) -> list[Item]:
    """Returns the fields and directives that may begin a line, and a new tune."""
    found = [Item(text, meaning, 0) for text, meaning in TABLE["header" if where.in_header else "body"].items()]
    if where.number is not None:
        found.append(Item(f"X:{where.number}", "a tune of this number", 0, snippet=TUNE.format(where.number)))
    found = [item._replace(snippet=VOICE_SNIPPET) if item.text == "V:" else item for item in found]
    return [item for item in found if item.text.startswith(where.before)]


def value_begun(before: str) -> Optional[tuple[str, int]]:
    """Returns the letter of the field in which a part of a line ends, and where its value begins."""
    bracket = before.rfind("[")
    for start in (0, bracket + 1) if bracket >= 0 and "]" not in before[bracket:] else (0,):
        field = before[start:]
        if field[:1] in tuple("KMLQV") and field[1:2] == ":" and "]" not in field:
            return field[0], len(before) - len(field[2:].lstrip(BLANKS))
    return None
