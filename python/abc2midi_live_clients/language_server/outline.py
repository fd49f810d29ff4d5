"""The tunes of a book with their voices, parts and sections, as a tree of symbols."""

from collections.abc import Iterator, Sequence
from itertools import chain
from typing import Any, NamedTuple

from abc2midi_live import TokenKind

from ..common.json_object import Json
from .document import Document, TuneLines, title_of
from .messages import ARRAY, CLASS, MODULE, NAMESPACE
from .token_texts import TokenText
from .voice_and_part_names import PART, Name, names_in
from .workspace import Workspace, name_of

MOST_FOUND = 1_000  # tunes that a search in the workspace lists
Place = tuple[int, int]  # a line and a character of it


class Stretch(NamedTuple):
    """A part of a tune: its name, the kind of its symbol, its places, and the places of its own name."""

    name: str
    kind: int
    start: Place
    end: Place
    name_end: Place


class Node(NamedTuple):
    """A stretch, and those inside it."""

    stretch: Stretch
    children: "list[Node]"


def document_symbols(workspace: Workspace, params: Any) -> list[Json]:
    """The symbols of a tune book: a tree if the editor has trees, else one flat list."""
    document, uri = workspace.document(params), params["textDocument"]["uri"]
    trees = [tree_of(document, tune) for tune in document.tunes()]
    if workspace.client.has_tree:
        return [symbol(document, tree) for tree in trees]
    return list(chain.from_iterable(flat_symbols(document, uri, tree, "") for tree in trees))


def workspace_symbols(workspace: Workspace, params: Any) -> list[Json]:
    """The tunes of all open books whose titles have some letters."""
    query = params["query"].casefold()
    found = []
    for uri, document in workspace.documents.items():
        for tune in [] if document.is_lost else document.tunes():
            if query in title_of(tune.tune).casefold():
                found.append(located(document, uri, tune_stretch(document, tune), name_of(uri)))
    return found[:MOST_FOUND]


def tree_of(document: Document, tune: TuneLines) -> Node:
    """Returns a tune with what is in it."""
    names = [name for name in names_in(document, tune) if not name.is_in_header]
    end = end_of_line(document, tune.end - 1)
    inner = [
        *stretches(document, [name for name in names if name.letter == PART], end),
        *voices(document, names, end),
        *sections(document, tune),
    ]
    return nested(tune_stretch(document, tune), sorted(inner, key=lambda each: (each.start, reversed_place(each.end))))


def reversed_place(place: Place) -> Place:
    """A place that sorts the other way round."""
    return -place[0], -place[1]


def tune_stretch(document: Document, tune: TuneLines) -> Stretch:
    """Returns the stretch of a tune."""
    return Stretch(
        title_of(tune.tune), MODULE, (tune.start, 0), end_of_line(document, tune.end - 1), end_of_line(document, tune.start)
    )


def end_of_line(document: Document, line: int) -> Place:
    """Returns the place after a line."""
    return line, len(document.lines[line])


def stretches(document: Document, names: Sequence[Name], end: Place) -> Iterator[Stretch]:
    """Yields the stretches that names begin: each goes to the next one."""
    for name, after in zip(names, [*names[1:], None]):
        stop = place_before(document, after) if after else end
        kind, what = (NAMESPACE, "part") if name.letter == PART else (CLASS, "voice")
        yield Stretch(f"{what} {name.text}", kind, (name.token.line, name.token.start), stop, (name.token.line, name.token.end))


def place_before(document: Document, name: Name) -> Place:
    """Returns the place before the field of a name: the end of the line before, if it begins its line."""
    line, start = name.token.line, name.token.start
    return end_of_line(document, line - 1) if start == 0 and line > 0 else (line, start)


def voices(document: Document, names: Sequence[Name], end: Place) -> Iterator[Stretch]:
    """Yields the first stretch of each voice in each part. It ends at the next voice or part."""
    seen: set[str] = set()
    for name, stretch in zip(names, stretches(document, names, end)):
        if name.letter == PART:
            seen.clear()
        elif stretch.name not in seen:
            seen.add(stretch.name)
            yield stretch


def sections(document: Document, tune: TuneLines) -> list[Stretch]:
    """Returns the sections of a tune: the music between repeats and double bars. One section alone is none."""
    found: list[tuple[Place, Place]] = []
    start = last = None
    for token in body_tokens(document, tune):
        if token.kind == TokenKind.BAR_LINE and ends_section(token.text):
            if start and last:
                found.append((start, (token.line, token.end)))
                start = last = None
        if token.kind == TokenKind.BAR_LINE and start is None and ":" == token.text[-1:]:
            start = token.line, token.start
        elif is_played(token):
            start, last = start or (token.line, token.start), (token.line, token.end)
    if start and last:
        found.append((start, last))
    return [Stretch(f"section {n}", ARRAY, a, b, b) for n, (a, b) in enumerate(found, 1)] if len(found) > 1 else []


def ends_section(bar: str) -> bool:
    """Returns whether a bar line is a repeat, a double bar or an end."""
    return ":" in bar or "||" in bar or "|]" in bar or "[|" in bar


def is_played(token: TokenText) -> bool:
    """Returns whether a token takes time."""
    return token.kind in (TokenKind.NOTE, TokenKind.CHORD, TokenKind.REST, TokenKind.BAR_REST)


def body_tokens(document: Document, tune: TuneLines) -> Iterator[TokenText]:
    """Yields the tokens of a tune but for the parts of chords."""
    for line in range(tune.start, tune.end):
        yield from (token for token in document.tokens(line) if not token.is_part)


def nested(whole: Stretch, inner: list[Stretch]) -> Node:
    """Returns stretches as a tree: each is in the last one that reaches over it."""
    root = Node(whole, [])
    path = [root]
    for stretch in inner:
        while len(path) > 1 and path[-1].stretch.end < stretch.end:
            path.pop()
        node = Node(stretch, [])
        path[-1].children.append(node)
        path.append(node)
    return root


def symbol(document: Document, node: Node) -> Json:
    """Returns a symbol with those inside it."""
    stretch = node.stretch
    return {
        "name": stretch.name,
        "kind": stretch.kind,
        "range": document.range(*stretch.start, *stretch.end),
        "selectionRange": document.range(*stretch.start, *min(stretch.name_end, stretch.end)),
        "children": [symbol(document, child) for child in node.children],
    }


def flat_symbols(document: Document, uri: str, node: Node, container: str) -> Iterator[Json]:
    """Yields a symbol and those inside it."""
    yield located(document, uri, node.stretch, container)
    for child in node.children:
        yield from flat_symbols(document, uri, child, node.stretch.name)


def located(document: Document, uri: str, stretch: Stretch, container: str) -> Json:
    """Returns a symbol in a list."""
    place = {"uri": uri, "range": document.range(*stretch.start, *stretch.end)}
    return {
        "name": stretch.name,
        "kind": stretch.kind,
        "location": place,
        **({"containerName": container} if container else {}),
    }
