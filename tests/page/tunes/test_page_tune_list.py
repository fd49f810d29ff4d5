"""The filter of the tunes, and what the page says when there is nothing to show, in node. It is skipped if node is not installed."""

import page_in_node


class Scripts(page_in_node.PageScripts):
    def test_scripts(self) -> None:
        self.assert_ok("tunes/page_tune_list.mjs", 3)
