"""A page as someone finds it who hears it, or who needs contrast."""

import test_page_in_browser
from contrasts import low_contrasts

NEED_NAMES = {"button", "link", "textbox", "searchbox", "checkbox", "radio", "radiogroup", "combobox", "slider", "spinbutton", "listbox", "option", "dialog", "navigation", "region", "group", "search"}


class HeardPage(test_page_in_browser.Browser):
    """Someone who hears a page."""

    def nodes(self) -> list[tuple[str, str]]:
        """The role and the name of each node that a screen reader finds."""
        tree = self.driver.execute_cdp_cmd("Accessibility.getFullAXTree", {})["nodes"]
        seen = [node for node in tree if not node.get("ignored")]
        return [(node.get("role", {}).get("value", ""), str(node.get("name", {}).get("value", "")).strip()) for node in seen]

    def assert_named(self, *wanted: tuple[str, str]) -> None:
        """All that needs a name has one, and some nodes are there."""
        found = self.nodes()
        self.assertEqual([node for node in found if node[0] in NEED_NAMES and not node[1]], [])
        self.assertEqual([node for node in wanted if node not in found], [])
        self.assertEqual(low_contrasts(self.driver), [])
