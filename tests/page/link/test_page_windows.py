"""Windows over one book, in node: carets, timed edits, and letters that are composed. They are skipped if it is not installed."""

from concurrent.futures import ThreadPoolExecutor

import page_in_node

PAIRS, PARTS = 1000, 4  # of timed edits; they are tried at the same time


class Scripts(page_in_node.PageScripts):
    is_slow = True

    def test_scripts(self) -> None:
        def tried(part: int) -> None:
            first, last = (part * PAIRS // PARTS + more for more in (0, PAIRS // PARTS - 1))
            self.assert_ok("link/page_windows.mjs", 15, str(first), str(last))

        with ThreadPoolExecutor(PARTS) as pool:
            list(pool.map(tried, range(PARTS)))
