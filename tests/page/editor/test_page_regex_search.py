"""The page's search for regular expressions, in node. It is skipped if node is not installed."""

import page_in_node


class Scripts(page_in_node.PageScripts):
    def test_scripts(self) -> None:
        self.assert_ok("editor/page_regex_search.mjs", 6)
