"""Playing tunes: the lenses and the action that offer it, and the commands that do it."""

from collections.abc import Iterable
from itertools import chain
from typing import Any, Optional

from ..common.json_object import Json
from ..common.player import Player
from ..common.session_book import Tune, files_of
from .document import Document, title_of
from .messages import INFO, INVALID_PARAMS, REQUEST_FAILED, Failure
from .parameters import PLACE, check_form
from .text_changes import Range, position_of
from .workspace import Workspace

PLAY, STOP = "abc2midi_live.play", "abc2midi_live.stop"
OLD_PLAY = "play"  # as 1.0.0 has it
COMMANDS = [PLAY, STOP, OLD_PLAY]


def execute(workspace: Workspace, params: Any) -> Optional[str]:
    """Plays the tune at a position, and names its file, or stops."""
    command = params["command"]
    if command == STOP:
        if workspace.settings.player:
            workspace.settings.player.stop()
        return None
    if command not in COMMANDS:
        raise Failure(INVALID_PARAMS, f"there is no command {command} here")
    check_form({"arguments": [PLACE]}, params, "the parameters")
    where = params["arguments"][0]
    document = workspace.document(where)
    path = document.file_at(document.place(position_of(where["position"]))[0])
    if workspace.settings.player:
        play(workspace.settings.player, path)
    else:
        workspace.notify("window/showMessage", {"type": INFO, "message": path})
    return path


def play(player: Player, path: str) -> None:
    """Plays a file."""
    try:
        player.play(path)
    except OSError as error:
        raise Failure(REQUEST_FAILED, f"{player.words[0]}: {error.strerror}") from error


def lenses(workspace: Workspace, params: Any) -> list[Json]:
    """'Play' and 'Stop' at each tune that has a file."""
    document, uri = workspace.document(params), params["textDocument"]["uri"]
    found = []
    for tune in playable(document):
        place = document.range(tune.line - 1, 0, tune.line - 1, len(document.lines[tune.line - 1]))
        found.append({"range": place, "command": play_command(document, uri, tune, "Play")})
        found.append({"range": place, "command": {"title": "Stop", "command": STOP}})
    return found


def playable(document: Document) -> Iterable[Tune]:
    """Returns the tunes that have a file, in the order of the text."""
    owners = files_of(document.book.tunes(), document.faults())
    return sorted(owners.values(), key=lambda tune: tune.line)


def play_command(document: Document, uri: str, tune: Tune, title: str) -> Json:
    """Returns the command that plays a tune."""
    position = document.range(tune.line - 1, 0, tune.line - 1, 0)["start"]
    return {"title": title, "command": PLAY, "arguments": [{"textDocument": {"uri": uri}, "position": position}]}


def play_action(document: Document, uri: str, place: Range) -> list[Json]:
    """Returns the command that plays the tune at the start of a range, or else the first one in it, if one has a file."""
    first, last = document.place(place.start)[0], document.place(place.end)[0]
    here = document.tune_at(first)
    later = (tune for tune in document.book.tunes() if first < tune.line <= last + 1)
    tune = next((tune for tune in chain([here] if here else [], later) if document.has_file(tune)), None)
    return [play_command(document, uri, tune, f"Play {title_of(tune)}")] if tune else []
