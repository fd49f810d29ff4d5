"""What the page knows of the lines and the tune that are seen, in node; and the names of the kinds of tokens."""

import page_in_node
from abc2midi_live import EntryKind, TokenKind


class Scripts(page_in_node.PageScripts):
    def test_scripts(self) -> None:
        self.assert_ok("link/page_tokens_and_plays.mjs", 6)

    def test_kinds(self) -> None:
        """They have the numbers of the library, as in Python."""
        tokens, entries = self.node("link/page_tokens_and_plays.mjs", arguments=["kinds"])
        self.assertEqual(tokens.split(","), [kind.name.title().replace("_", "") for kind in sorted(TokenKind, key=lambda kind: kind.value)])
        self.assertEqual(entries.split(","), [kind.name.title() for kind in sorted(EntryKind, key=lambda kind: kind.value)])
