"""The outcomes of a study as one HTML page: plots, means and a table of all pairs. It needs no network."""
from __future__ import annotations

import html
import pkgutil
from typing import Dict

from ..program.language import escaped
from .attack import LEAK
from .plots import distribution_plot, tier_plot
from .statistics import distribution
from .table import NUMBERS, PLANES, Row, Table, interval

OF_A_LEAK = "In a leak, captured is who passes the attacker and would not without the leak."
COLUMNS = ("victim", "attacker", "tier", *NUMBERS, *("%s by routes" % name for name in NUMBERS))


def page_of(table: Table) -> str:
    """The page; whatever comes from a file is escaped."""
    frame = (pkgutil.get_data("bgptools.hijack", "page.html") or b"").decode("utf-8")
    counts = {tier: len(rows) for tier, rows in table.tiers().items()}
    means = ["captured by %s: %s" % (name, interval(table.captured[plane]))
             for plane, name in zip(PLANES, ("packets", "routes"))]
    values: Dict[str, str] = {
        "TITLE": shown("Hijacks in " + table.study.path), "SUMMARY": shown("\n".join(table.heading() + means)),
        "LEAK": OF_A_LEAK if table.study.kind == LEAK else "",
        "DISTRIBUTION": distribution_plot([distribution(table.shares(plane, table.rows)) for plane in PLANES]),
        "TIERS": tier_plot(table.by_tier, counts),
        "HEAD": "".join("<th>%s</th>" % name for name in COLUMNS),
        "ROWS": "\n".join(map(_row, table.rows)),
        "PROGRAM": shown("\n".join(["bgpsim " + table.program.version, *table.program.lines(),
                                    "relationships: sha256:" + table.study.digest]))}
    pieces = frame.split("%%")
    return "".join(values[piece] if number % 2 else piece for number, piece in enumerate(pieces))


def shown(text: str) -> str:
    """Text that can stand in a page, in an attribute too."""
    return html.escape(escaped(text, "\n"))


def _row(row: Row) -> str:
    cells = [*row.pair, row.tier, *(getattr(row.plane(plane), name) for plane in PLANES for name in NUMBERS)]
    return "<tr>%s</tr>" % "".join("<td>%s</td>" % cell for cell in cells)
