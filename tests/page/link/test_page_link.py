"""The page's link to a server that is killed, started again, slow, and shared, in node. It is skipped if that is not installed.

LONG_LOOPS=1 in the environment tries 3,000 random schedules of each kind."""

import os
from concurrent.futures import ThreadPoolExecutor

import page_in_node

SEEDS = (287, 307, 1270, 1483)  # windows have edits in common, and no text that has these alone, or they have them in another order
# The first and the last seed of each part
PARTS = [(1 + 750 * part, 750 + 750 * part) for part in range(4)] if os.environ.get("LONG_LOOPS") else [(1, 20), (21, 40), *zip(SEEDS, SEEDS)]


class Scripts(page_in_node.PageScripts):
    is_slow = True

    def test_scripts(self) -> None:
        def tried(part: tuple[int, int]) -> None:
            self.assert_ok("link/page_link.mjs", 8, *map(str, part))

        with ThreadPoolExecutor(len(PARTS)) as pool:
            list(pool.map(tried, PARTS))
