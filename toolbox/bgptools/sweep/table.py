"""The changes of a sweep as a table, the worst first: for a reader, as CSV, as JSON."""
from __future__ import annotations

import csv
import io
from typing import Any, Dict, List, Tuple

from ..change.report import count
from ..program import documents
from ..program.language import by_address, readable
from ..program.names import Names
from ..program.provenance import Provenance
from .effect_counts import Figures
from .families import ORDER, Trial

Row = Tuple[Trial, Figures]
NUMBERS = ("lost", "black_holes", "loops", "moved", "captured", "gained", "told", "down", "messages")
TITLES = ("lost", "black holes", "loops", "moved", "captured", "gained", "told", "down", "messages")


class Table:
    """The rows of a sweep of a base, the worst first; `places` has the number of each change, from 1. Stable states are
    numbered, those that most orders end in first. `program` is which program played it; `standing` packets go round in
    the base already."""

    def __init__(self, base: str, trials: List[Trial], figures: List[Figures], names: Names,
                 program: Provenance, standing: int = 0) -> None:
        self.base, self.names, self.program, self.standing = base, names, program, standing
        rows: List[Row] = list(zip(trials, figures))
        order = sorted(range(len(rows)), key=lambda at: (figures[at].rank(), at))
        self.rows, self.places = [rows[at] for at in order], [at + 1 for at in order]
        self.states: Dict[str, List[int]] = {}
        for trial, found in (row for row in rows if row[0].kind == ORDER and row[1].is_converged and not row[1].mistake):
            self.states.setdefault(found.state, []).append(trial.seed)
        self.known = sorted(self.states, key=lambda state: (-len(self.states[state]), self.states[state]))

    def state_of(self, found: Figures) -> int:
        """The number of the stable state, from 1; 0 where there is none."""
        return self.known.index(found.state) + 1 if found.state in self.states else 0

    @property
    def is_bad(self) -> bool:
        """Whether any change makes something worse."""
        return any(found.is_bad for _, found in self.rows)

    def summary(self) -> List[str]:
        """How many changes there are, and what they do."""
        singles = sum(found.is_single for _, found in self.rows)
        endless = sum(not found.is_converged for _, found in self.rows)
        losing = sum(found.is_bad and found.is_converged for _, found in self.rows)
        lines = ["%s of %s: %s, %d that %s something, %d that %s not converge" % (
            count(len(self.rows), "change"), self.base,
            count(singles, "single point of failure", "single points of failure"),
            losing, "loses" if losing == 1 else "lose", endless, "does" if endless == 1 else "do")]
        if self.standing:
            lines.append("%s in loops of the base itself, which `check %s` explains" % (
                count(self.standing, "packet goes round", "packets go round"), self.base))
        orders = sum(trial.kind == ORDER for trial, _ in self.rows)
        if orders:
            lines.append("%s in %s" % (count(len(self.known), "stable state"), count(orders, "random order")))
            lines += ["  state %d: in %d of %d, as with order %d" % (
                number, len(self.states[state]), orders, self.states[state][0])
                for number, state in enumerate(self.known, 1)]
        return lines


def numbers_of(found: Figures) -> List[int]:
    """The numbers of a change, as the columns have them."""
    values = [getattr(found, name) for name in NUMBERS]
    return [len(value) if isinstance(value, list) else value for value in values]


def remark(table: Table, found: Figures) -> str:
    """What the numbers of a change do not say."""
    if found.mistake:
        return found.mistake
    state = table.state_of(found)
    return "DOES NOT CONVERGE" if not found.is_converged else "state %d" % state if state else ""


def text_of(table: Table) -> str:
    """The table for a reader."""
    width = max([len(trial.title) for trial, _ in table.rows] + [len("change")])
    lines = [" ".join(["  %-*s" % (width, "change")] + [" %s" % title for title in TITLES])]
    before = None
    for trial, found in table.rows:
        if found.is_single != before and (found.is_single or before):
            lines.append("Single points of failure" if found.is_single else "Other changes")
        before = found.is_single
        cells = [" %*s" % (len(title), "-" if found.mistake else number)
                 for title, number in zip(TITLES, numbers_of(found))]
        lines.append(" ".join(["  %-*s" % (width, trial.title)] + cells + ["  " + remark(table, found)]).rstrip())
    return "\n".join(table.summary() + [""] + lines) + "\n"


def csv_of(table: Table) -> str:
    """The table as CSV, with a head."""
    made = io.StringIO()
    writer = csv.writer(made, lineterminator="\n")
    writer.writerow(["number", "change", "kind", "single_point", "converges", *NUMBERS, "packets", "state", "mistake"])
    for place, (trial, found) in zip(table.places, table.rows):
        writer.writerow([place, trial.title, trial.kind, int(found.is_single), int(found.is_converged),
                         *numbers_of(found), found.packets, table.state_of(found) or "", found.mistake])
    return made.getvalue()


def _json_row(table: Table, place: int, trial: Trial, found: Figures) -> Dict[str, Any]:
    told = [dict(zip(("router", "neighbour"), way.split(" "))) for way in found.told]
    names = ("moved", "lost", "gained", "packets_lost")
    return {"number": place, "change": trial.title, "kind": trial.kind, "commands": [readable(line.text) for line in trial.lines],
            "single_point": found.is_single, "converged": found.is_converged, **dict(zip(NUMBERS, numbers_of(found))),
            "packets": found.packets, "neighbours": told, "state": table.state_of(found) or None,
            "mistake": found.mistake or None, "routers": {
                router: dict(zip(names, found.routes[router])) for router in sorted(found.routes, key=by_address)}}


def json_of(table: Table) -> str:
    """The table for a program."""
    rows = [_json_row(table, place, *row) for place, row in zip(table.places, table.rows)]
    states = [{"state": number, "orders": table.states[state]} for number, state in enumerate(table.known, 1)]
    return documents.text_of(documents.document("sweep", base=table.base, program=table.program, changes=rows,
                                                states=states, names=table.names.of))
