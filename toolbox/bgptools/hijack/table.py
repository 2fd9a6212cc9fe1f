"""The outcomes of a study as a table, the most captured first: for a reader, as CSV, as JSON."""
from __future__ import annotations

import csv
import io
from typing import Any, Dict, List, NamedTuple, Sequence

from ..change.report import count
from ..program import documents
from ..program.mistakes import Mistake
from ..program.provenance import Provenance
from .deployment import TIERS, Deployment, tier_of
from .outcome import Outcome, Plane
from .pairs import Pair
from .statistics import Share, mean_of
from .study import Study

PLANES = ("data", "control")
NUMBERS = ("captured", "kept", "disconnected")
SHOWN = 20


class Row(NamedTuple):
    """A pair, by its number from 1, and what its hijack does; `tier` is that of the attacker."""
    number: int
    pair: Pair
    tier: str
    outcome: Outcome

    def plane(self, name: str) -> Plane:
        """The numbers by packets (`data`), or by routes (`control`)."""
        return self.outcome.data if name == "data" else self.outcome.control


class Table:
    """The rows of a study, the most captured by packets first, and those that were `failed`: not played. `others` are
    the ASes that may be captured by a pair. Mistake where no pair was played."""

    def __init__(self, study: Study, outcomes: Sequence[Outcome], program: Provenance) -> None:
        self.study, self.program, self.others = study, program, len(study.known.customers) - 2
        rows = [Row(number, pair, tier_of(study.known, pair.attacker), outcome)
                for number, (pair, outcome) in enumerate(zip(study.pairs, outcomes), 1)]
        self.failed = [row for row in rows if row.outcome.mistake]
        rows = [row for row in rows if not row.outcome.mistake]
        if not rows:
            raise Mistake("no pair was played: pair %d %d: %s" % (*self.failed[0].pair, self.failed[0].outcome.mistake))
        self.rows = sorted(rows, key=lambda row: (-row.outcome.data.captured, -row.outcome.control.captured,
                                                  row.number))
        # Of each plane the mean shares: of captured ones with an interval, of others without.
        self.captured = {name: mean_of(self.shares(name, self.rows)) for name in PLANES}
        self.by_tier = {tier: mean_of(self.shares("data", rows)) for tier, rows in self.tiers().items()}

    def tiers(self) -> Dict[str, List[Row]]:
        """The rows by the tier of the attacker, the highest first, without those of which there is none."""
        found = {tier: [row for row in self.rows if row.tier == tier] for tier in TIERS}
        return {tier: rows for tier, rows in found.items() if rows}

    def shares(self, plane: str, rows: Sequence[Row], name: str = "captured") -> List[float]:
        """Of each row what part of the others is captured, or another one of NUMBERS; 0 where there are no others."""
        return [getattr(row.plane(plane), name) / max(self.others, 1) for row in rows]

    @property
    def is_any(self) -> bool:
        """Whether anybody is captured, by packets or by routes."""
        return any(row.plane(name).captured for row in self.rows for name in PLANES)

    def heading(self) -> List[str]:
        """What was studied."""
        study = self.study
        drawn = "" if study.seed is None else ", drawn by seed %d" % study.seed
        lines = ["Hijacks of kind %s in %s: %s%s, %d ASes" % (
            study.kind, study.path, count(len(study.pairs), "pair"), drawn, len(study.known.customers))]
        lines += ["NOT PLAYED: %s" % count(len(self.failed), "pair")] if self.failed else []
        for option, found in (("--rov", study.rov), ("--peerlock", study.peerlock)):
            lines += ["%s %s: %s" % (option, found.words, count(len(found.asns), "AS", "ASes"))] if found.words else []
        return lines


def percent(share: float) -> str:
    """A share of 0 to 1."""
    return "%.1f %%" % (100 * share)


def interval(share: Share) -> str:
    """A mean with its interval."""
    return "%s (%.1f to %.1f)" % (percent(share.mean), 100 * share.low, 100 * share.high)


def text_of(table: Table) -> str:
    """The table for a reader: means, with intervals of 95 percent, and the first rows."""
    lines = table.heading() + ["", "  %-14s%-26s%s" % ("of other ASes", "by packets", "by routes")]
    for name in NUMBERS:
        cells = [interval(table.captured[plane]) if name == "captured" else percent(_mean(table, plane, name))
                 for plane in PLANES]
        lines.append("  %-14s%-26s%s" % (name, *cells))
    lines += ["", "Captured by packets, by the attacker's tier"]
    for tier, share in table.by_tier.items():
        lines.append("  %-14s%-26s%s" % (tier, interval(share), count(len(table.tiers()[tier]), "pair")))
    lines += ["", "%10s %10s  %-8s %9s %9s %12s  %s" % ("victim", "attacker", "tier", *NUMBERS, "captured by routes")]
    for row in table.rows[:SHOWN]:
        found = row.outcome
        lines.append("%10d %10d  %-8s %9d %9d %12d  %d" % (
            *row.pair, row.tier, found.data.captured, found.data.kept, found.data.disconnected, found.control.captured))
    left = len(table.rows) - SHOWN
    return "\n".join(lines + (["and %d more: --csv FILE has all" % left] if left > 0 else [])) + "\n"


def _mean(table: Table, plane: str, name: str) -> float:
    shares = table.shares(plane, table.rows, name)
    return sum(shares) / len(shares)


def csv_of(table: Table) -> str:
    """The table as CSV, with a head."""
    made = io.StringIO()
    writer = csv.writer(made, lineterminator="\n")
    of_routes = ["%s_by_routes" % name for name in NUMBERS]
    writer.writerow(["number", "victim", "attacker", "kind", "tier", *NUMBERS, *of_routes, "played"])
    for row in table.rows:
        cells = [getattr(row.plane(plane), name) for plane in PLANES for name in NUMBERS]
        writer.writerow([row.number, *row.pair, table.study.kind, row.tier, *cells, row.outcome.played])
    return made.getvalue()


def _deployed(found: Deployment) -> Any:
    return {"words": found.words, "ases": len(found.asns)} if found.words else None


def json_of(table: Table) -> str:
    """The table for a program."""
    study = table.study
    rows = [{"number": row.number, "victim": row.pair.victim, "attacker": row.pair.attacker, "tier": row.tier,
             "data": row.outcome.data, "control": row.outcome.control, "played": row.outcome.played}
            for row in table.rows]
    failed = [{"number": row.number, "victim": row.pair.victim, "attacker": row.pair.attacker,
               "mistake": row.outcome.mistake} for row in table.failed]
    tiers = [{"tier": tier, "pairs": len(table.tiers()[tier]), "captured": share}
             for tier, share in table.by_tier.items()]
    return documents.text_of(documents.document(
        "hijack", file=study.path, sha256=study.digest, ases=len(study.known.customers), kind=study.kind,
        seed=study.seed, rov=_deployed(study.rov), peerlock=_deployed(study.peerlock),
        played="all" if study.is_all else "above", program=table.program, captured=table.captured, tiers=tiers,
        pairs=rows, failed=failed))
