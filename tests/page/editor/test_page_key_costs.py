"""What a key costs in the page: as much in a long book as in a short one."""

import page_in_node


class Scripts(page_in_node.PageScripts):
    """What its scripts do for a key, in node."""

    def test_scripts(self) -> None:
        self.assert_ok("editor/page_key_costs.mjs", 17)
