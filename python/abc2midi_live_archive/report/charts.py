"""Bar charts for the report: elements that take the width of the window."""

from __future__ import annotations

from collections.abc import Sequence
from html import escape
from typing import NamedTuple


class Row(NamedTuple):
    """A row of a chart. `link` may lead to a place in the page."""

    label: str
    value: float
    text: str
    link: str = ""


def chart(title: str, rows: Sequence[Row]) -> str:
    """Returns a chart with a bar for each row."""
    most = max((row.value for row in rows), default=0) or 1
    return f'<div class="chart" role="group" aria-label="{escape(title)}">{"".join(drawn_row(row, row.value / most) for row in rows)}</div>'


def drawn_row(row: Row, share: float) -> str:
    """Returns the label, the bar and the value of a row."""
    drawn = (
        f'<span class="label">{escape(row.label)}</span>'
        f'<span class="bar"><i style="width:{max(share, 0.002) if share else 0:.2%}"></i></span>'
        f'<span class="value">{escape(row.text)}</span>'
    )
    title = f'title="{escape(row.label)}: {escape(row.text)}"'
    return f'<a class="row" href="{escape(row.link)}" {title}>{drawn}</a>\n' if row.link else f'<div class="row" {title}>{drawn}</div>\n'
