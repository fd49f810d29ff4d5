"""A new tune in a book: in node, and a click in a browser."""

import page_in_node
import test_page_in_browser


class Scripts(page_in_node.PageScripts):
    def test_scripts(self) -> None:
        self.assert_ok("tunes/page_new_tune.mjs", 3)


class Clicked(test_page_in_browser.Browser):
    """Someone who begins a tune."""

    opening = b"X:1\nK:C\nC\n"

    def test_a_click(self) -> None:
        """The title is selected, so that one types it at once."""
        self.driver.find_element("id", "new-tune").click()
        self.press("The Kesh")
        self.wait_for_lines("X:1", "K:C", "C", "", "X:2", "T:The Kesh", "M:4/4", "L:1/8", "K:C", "")
        self.wait(lambda: self.run_script(test_page_in_browser.TITLES) == [[0, "1", "(no title)"], [1, "2", "The Kesh"]])
