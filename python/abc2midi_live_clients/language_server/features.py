"""Which function answers each request, and what the server says that it can do."""

from collections.abc import Callable
from typing import Any

from ..common.json_object import Json
from . import bar_numbers, code_actions, completion, folding, hover, outline, playing, semantic_tokens, voice_and_part_names
from .messages import INCREMENTAL
from .workspace import Workspace

REQUESTS: dict[str, Callable[[Workspace, Any], Any]] = {
    "textDocument/documentSymbol": outline.document_symbols,
    "textDocument/foldingRange": folding.folding_ranges,
    "textDocument/codeAction": code_actions.code_actions,
    "textDocument/codeLens": playing.lenses,
    "textDocument/hover": hover.hover,
    "textDocument/completion": completion.completion,
    "textDocument/semanticTokens/full": semantic_tokens.of_document,
    "textDocument/semanticTokens/range": semantic_tokens.of_range,
    "textDocument/definition": voice_and_part_names.definition,
    "textDocument/references": voice_and_part_names.references,
    "textDocument/documentHighlight": voice_and_part_names.highlights,
    "textDocument/prepareRename": voice_and_part_names.prepare_rename,
    "textDocument/rename": voice_and_part_names.rename,
    "textDocument/inlayHint": bar_numbers.inlay_hints,
    "workspace/symbol": outline.workspace_symbols,
    "workspace/executeCommand": playing.execute,
}
CAPABILITIES: Json = {
    "textDocumentSync": {"openClose": True, "change": INCREMENTAL, "save": {"includeText": True}},
    "documentSymbolProvider": True,
    "foldingRangeProvider": True,
    "codeActionProvider": {"codeActionKinds": code_actions.KINDS},
    "codeLensProvider": {"resolveProvider": False},
    "hoverProvider": True,
    "completionProvider": {"triggerCharacters": [":", "%", "!", "="]},
    "semanticTokensProvider": {"legend": semantic_tokens.LEGEND, "full": True, "range": True},
    "definitionProvider": True,
    "referencesProvider": True,
    "documentHighlightProvider": True,
    "renameProvider": {"prepareProvider": True},
    "inlayHintProvider": True,
    "workspaceSymbolProvider": True,
    "executeCommandProvider": {"commands": playing.COMMANDS},
}
