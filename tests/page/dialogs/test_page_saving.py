"""When the page saves, in node."""

import page_in_node


class Scripts(page_in_node.PageScripts):
    def test_scripts(self) -> None:
        self.assert_ok("dialogs/page_saving.mjs", 3)
