"""What an editor can do, as its first request has it."""

from typing import Any

from .position_encodings import UTF16, encoding_for


class Client:
    """The abilities of an editor that decide what it is sent."""

    def __init__(self, params: Any = None):
        capabilities = params.get("capabilities") if isinstance(params, dict) else None
        self.encoding = encoding_for(capabilities) if capabilities else UTF16
        self.has_markdown = "markdown" in (value(capabilities, "textDocument.hover.contentFormat") or [])
        self.can_register = can(capabilities, "textDocument.synchronization.dynamicRegistration")
        self.has_tree = can(capabilities, "textDocument.documentSymbol.hierarchicalDocumentSymbolSupport")
        self.has_snippets = can(capabilities, "textDocument.completion.completionItem.snippetSupport")
        self.has_versions = can(capabilities, "workspace.workspaceEdit.documentChanges")
        self.has_links = can(capabilities, "textDocument.publishDiagnostics.codeDescriptionSupport")


def can(capabilities: Any, path: str) -> bool:
    """Returns whether a value in the capabilities is true."""
    return value(capabilities, path) is True


def value(capabilities: Any, path: str) -> Any:
    """Returns a value in the capabilities, or None."""
    for name in path.split("."):
        capabilities = capabilities.get(name) if isinstance(capabilities, dict) else None
    return capabilities
