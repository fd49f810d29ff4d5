"""Where faults, hints and tunes are, and the questions about texts that differ, in node. It is skipped if node is not installed."""

import page_in_node


class Scripts(page_in_node.PageScripts):
    def test_scripts(self) -> None:
        self.assert_ok("link/page_findings.mjs", 3)
