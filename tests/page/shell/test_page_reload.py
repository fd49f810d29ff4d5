"""A page of which a part does not arrive, in node. It is skipped if node is not installed."""

import page_in_node


class Scripts(page_in_node.PageScripts):
    def test_scripts(self) -> None:
        self.assert_ok("shell/page_reload.mjs", 1)
