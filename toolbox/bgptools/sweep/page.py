"""The changes of a sweep as one HTML page: a table to sort, a map of changes by routers, the what-if of each change."""
from __future__ import annotations

import html
import pkgutil
from typing import Dict, List, Optional

from ..program.language import by_address, escaped
from .effect_counts import DROPPED, LOST, Cell
from .table import TITLES, Row, Table, numbers_of, remark

COLUMNS = ("change", "single point", "converges", *TITLES, "")
WORDS = ("moved", "lost", "gained", "packets lost")


def page_of(table: Table) -> str:
    """The page. It needs no network; whatever comes from a script or a file is escaped."""
    routers = sorted({router for _, found in table.rows for router in found.routes}, key=by_address)
    frame = (pkgutil.get_data("bgptools.sweep", "page.html") or b"").decode("utf-8")
    values: Dict[str, str] = {
        "TITLE": shown("Changes of " + table.base), "SUMMARY": shown("\n".join(table.summary())),
        "PROGRAM": shown("\n".join(["bgpsim " + table.program.version, *table.program.lines()])),
        "CHANGES": "\n".join(_change(place, row) for place, row in zip(table.places, table.rows)),
        "HEAD": "".join("<th><button>%s</button></th>" % (name or "remark") for name in COLUMNS),
        "ROWS": "\n".join(_row(table, place, row) for place, row in zip(table.places, table.rows)),
        "ROUTERS": "".join("<th><span>%s</span></th>" % shown(table.names.shown(router)) for router in routers),
        "CELLS": "\n".join(_cells(table, place, row, routers)
                           for place, row in zip(table.places, table.rows) if row[1].routes)}
    pieces = frame.split("%%")
    return "".join(values[piece] if number % 2 else piece for number, piece in enumerate(pieces))


def shown(text: str) -> str:
    """Text that can stand in a page, in an attribute too."""
    return html.escape(escaped(text, "\n"))


def _change(place: int, row: Row) -> str:
    """What what-if tells of a change, which stands there when a cell leads to it."""
    trial, found = row
    commands = "".join(line.text + "\n" for line in trial.lines)
    return '<section class="change" id="c%d"><h2>%s</h2><pre>%s</pre><pre>%s</pre></section>' % (
        place, shown(trial.title), shown(commands), shown(found.mistake or found.text))


def _row(table: Table, place: int, row: Row) -> str:
    trial, found = row
    cells: List[object] = ["yes" if found.is_single else "", "yes" if found.is_converged else "no",
                           *numbers_of(found), remark(table, found)]
    told = "".join('<td data-value="{0}">{0}</td>'.format(shown(str(cell))) for cell in cells)
    return '<tr%s><td data-value="%s"><a href="#c%d">%s</a></td>%s</tr>' % (
        ' class="single"' if found.is_single else "", shown(trial.title), place, shown(trial.title), told)


def _cells(table: Table, place: int, row: Row, routers: List[str]) -> str:
    trial, found = row
    cells = "".join(_cell(table, place, router, found.routes.get(router)) for router in routers)
    return '<tr><th><a href="#c%d">%s</a></th>%s</tr>' % (place, shown(trial.title), cells)


def _cell(table: Table, place: int, router: str, cell: Optional[Cell]) -> str:
    if cell is None:
        return "<td></td>"
    number = sum(cell[:DROPPED])
    level = 1 if number < 3 else 2 if number < 10 else 3
    told = ", ".join("%s %d" % (word, count) for word, count in zip(WORDS, cell) if count)
    title = shown("%s: %s" % (table.names.shown(router), told))
    return '<td class="%s%d"><a href="#c%d" title="%s">%d</a></td>' % (
        "l" if cell[LOST] or cell[DROPPED] else "m", level, place, title, max(number, cell[DROPPED]))
