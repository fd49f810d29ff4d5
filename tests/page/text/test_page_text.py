"""What can be undone, and the file of the text, in node. It is skipped if node is not installed."""

import page_in_node


class Scripts(page_in_node.PageScripts):
    def test_scripts(self) -> None:
        self.assert_ok("text/page_text.mjs", 22)
