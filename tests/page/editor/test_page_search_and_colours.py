"""Find and replace, the colours of tokens and the remarks on faults, in node. It is skipped if node is not installed."""

import page_in_node


class Scripts(page_in_node.PageScripts):
    def test_scripts(self) -> None:
        self.assert_ok("editor/page_search_and_colours.mjs", 12)
