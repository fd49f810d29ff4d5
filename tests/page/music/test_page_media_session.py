"""The keys for media and the lock of the screen, without a browser. It is skipped if node is not installed."""

import page_in_node


class Scripts(page_in_node.PageScripts):
    def test_scripts(self) -> None:
        self.assert_ok("music/page_media_session.mjs", 5)
