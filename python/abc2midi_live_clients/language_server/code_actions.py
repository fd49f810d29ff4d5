"""The actions that an editor offers at a place: quick fixes, all fixes at once, and playing."""

from collections import defaultdict
from collections.abc import Iterable
from typing import Any, Optional

from ..common.json_object import Json
from .diagnostics import Remark, diagnostic, remarks_in
from .document import Document
from .fixes.fields import FIELD_FIXES
from .fixes.fix import Fix, Known, LineChange
from .fixes.foreign import FOREIGN_FIXES
from .fixes.lines import LINE_FIXES
from .fixes.music import MUSIC_FIXES
from .fixes.notes import NOTE_FIXES
from .playing import play_action
from .text_changes import Range, range_of
from .workspace import Workspace

FIXES = {**LINE_FIXES, **FIELD_FIXES, **MUSIC_FIXES, **NOTE_FIXES, **FOREIGN_FIXES}
MOST_FIXES = 100  # that an editor is offered at once
QUICK_FIX, FIX_ALL = "quickfix", "source.fixAll"
KINDS = [QUICK_FIX, FIX_ALL]


def code_actions(workspace: Workspace, params: Any) -> list[Json]:
    """The quick fixes in a range, the one that makes all preferred ones, and the command that plays its first tune with a file. The
    command is of no kind, so an editor that asks for some kinds alone is not sent it."""
    document, place, uri = workspace.document(params), range_of(params["range"]), params["textDocument"]["uri"]
    only = (params.get("context") or {}).get("only")
    found: list[Json] = []
    if not only or {"", QUICK_FIX} & set(only):
        found += quick_fixes(workspace, document, uri, place)
    if {"source", FIX_ALL} & set(only or ()):
        found += fix_all(workspace, document, uri)
    if not only or "" in only:
        found += play_action(document, uri, place)
    return found


def quick_fixes(workspace: Workspace, document: Document, uri: str, place: Range) -> list[Json]:
    """Returns the fixes of faults and hints in a range, of many the first ones. Two that make the same changes are one."""
    first, last = document.character(place.start), document.character(place.end)
    found: dict[tuple[LineChange, ...], Json] = {}
    for remark in remarks_in(document, first[0], last[0]):
        fix = fix_of(document, remark) if remark.meets(first, last) else None
        if fix and fix.changes in found:
            found[fix.changes]["diagnostics"].append(diagnostic(document, remark))
        elif fix and len(found) < MOST_FIXES:
            found[fix.changes] = {
                "title": fix.title,
                "kind": QUICK_FIX,
                "diagnostics": [diagnostic(document, remark)],
                "isPreferred": fix.is_preferred,
                "edit": workspace.edit(uri, edits(document, fix.changes)),
            }
    return list(found.values())


def fix_of(document: Document, remark: Remark, promised: Optional[set[int]] = None) -> Optional[Fix]:
    """Returns the fix of a fault or a hint, if its sentence names one."""
    make = FIXES.get(remark.name)
    return make(Known(document, remark, promised or set())) if make else None


def fix_all(workspace: Workspace, document: Document, uri: str) -> list[Json]:
    """Returns the action that makes all preferred fixes of a book, but for those that touch an earlier one."""
    made: defaultdict[int, list[LineChange]] = defaultdict(list)
    numbers: set[int] = set()
    for remark in remarks_in(document, 0, len(document.lines)):
        fix = fix_of(document, remark, numbers)
        if fix and fix.is_preferred and not any(touches(one, other) for one in fix.changes for other in made[one.line]):
            numbers |= {int(change.text) for change in fix.changes if change.text.isdecimal()}
            for change in fix.changes:
                made[change.line].append(change)
    changes = sorted(change for those in made.values() for change in those)
    if not changes:
        return []
    edit = workspace.edit(uri, edits(document, changes))
    return [{"title": "Make all preferred fixes", "kind": FIX_ALL, "edit": edit}]


def touches(one: LineChange, other: LineChange) -> bool:
    """Returns whether two changes of a line are at one place."""
    return one.start <= other.end and other.start <= one.end


def edits(document: Document, changes: Iterable[LineChange]) -> list[Json]:
    """Returns changes as the protocol has them."""
    return [{"range": document.range(line, start, line, end), "newText": text} for line, start, end, text in changes]
