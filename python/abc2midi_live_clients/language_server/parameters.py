"""The forms of parameters, so that wrong ones are refused before anything is done, and other exceptions are errors of this server."""

from typing import Any

Form = Any  # a type; an object as a dictionary of forms; a list that begins with a value of a form
WORDS: dict[type, str] = {dict: "an object", list: "a list", str: "a text"}

BOOK: Form = {"textDocument": {"uri": str}}
PLACE: Form = {**BOOK, "position": dict}
RANGE: Form = {**BOOK, "range": dict}
FORMS: dict[str, Form] = {
    "textDocument/didOpen": {"textDocument": {"uri": str, "text": str}},
    "textDocument/didSave": BOOK,
    "textDocument/didClose": BOOK,
    "textDocument/documentSymbol": BOOK,
    "textDocument/foldingRange": BOOK,
    "textDocument/codeAction": RANGE,
    "textDocument/codeLens": BOOK,
    "textDocument/hover": PLACE,
    "textDocument/completion": PLACE,
    "textDocument/semanticTokens/full": BOOK,
    "textDocument/semanticTokens/range": RANGE,
    "textDocument/definition": PLACE,
    "textDocument/references": PLACE,
    "textDocument/documentHighlight": PLACE,
    "textDocument/prepareRename": PLACE,
    "textDocument/rename": {**PLACE, "newName": str},
    "textDocument/inlayHint": RANGE,
    "workspace/symbol": {"query": str},
    "workspace/executeCommand": {"command": str},
}


class WrongParams(Exception):
    """Parameters that have another form than the protocol's."""


def check(method: str, params: Any) -> None:
    """Raises WrongParams if a method cannot have these parameters."""
    if method in FORMS:
        check_form(FORMS[method], params, "the parameters")


def check_form(form: Form, value: Any, name: str) -> None:
    """Raises WrongParams if a value has another form."""
    kind: Any = form if isinstance(form, type) else type(form)
    if not isinstance(value, kind):
        raise WrongParams(f"{name} should be {WORDS[kind]}")
    if isinstance(form, dict):
        for key, inner in form.items():
            check_form(inner, value.get(key), key)
    if isinstance(form, list):
        if not value:
            raise WrongParams(f"{name} is empty")
        check_form(form[0], value[0], name)
