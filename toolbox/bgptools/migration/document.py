"""Two configurations compared, as JSON: the fields that `what-if --json` has beside those of a change."""
from __future__ import annotations

from typing import Any, Dict, List, Optional

from ..importers.common.configuration import Told
from ..importers.common.report import whole
from .comparison import Comparison
from .report import notes
from .sources import Source
from .transients import Played

# The fields where a change is played in one network.
NONE: Dict[str, Any] = {"configuration": [], "left_out": [], "steps": None}


def fields_of(found: Comparison) -> Dict[str, Any]:
    """The parts of the configuration that differ, what importers left out, and the steps."""
    told = found.left_out
    return {
        "configuration": [{"kind": each.kind, "part": each.part[0], "of": list(each.part[1:]), "old": each.old,
                           "new": each.new, "old_lines": _lines(each.old_sources),
                           "new_lines": _lines(each.new_sources),
                           "indirect": each.is_indirect} for each in found.parts],
        "left_out": [*_told("old", told.old), *_told("new", told.new), *_told("both", told.both)],
        "steps": _steps(found.played)}


def notes_of(found: Comparison) -> List[str]:
    """What bounds the comparison."""
    return notes(found)


def _lines(found: List[Source]) -> List[Dict[str, Any]]:
    return [{"file": each.file, "line": each.number, "text": each.said} for each in found]


def _told(side: str, found: List[Told]) -> List[Dict[str, Any]]:
    return [{"side": side, "file": each.file, "line": each.line, "text": whole(each.text), "decides": each.decides}
            for each in found]


def _steps(played: Optional[Played]) -> Optional[Dict[str, Any]]:
    if played is None:
        return None
    within = [{"kind": each.kind, "step": each.line.number, "router": each.sender, "peer": each.receiver,
               "prefix": each.prefix} for each in played.within]
    return {"steps": [{"title": step.title, "commands": step.commands} for step in played.steps],
            "for_a_while": [{"kind": each.kind, "router": each.router, "peer": each.peer or None, "about": each.about,
                             "since": each.since, "until": each.until} for each in played.temporary],
            "within_a_step": within, "not_converged": played.not_converged, "other_routes_at": played.differs}
