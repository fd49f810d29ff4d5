"""Scripts of the page, in node. They are skipped if it is not installed."""

import page_in_node


class Scripts(page_in_node.PageScripts):
    def test_scripts(self) -> None:
        self.assert_ok("link/page_server.mjs", 6)
