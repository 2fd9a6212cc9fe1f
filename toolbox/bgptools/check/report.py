"""What a check found, for a reader and as JSON: a line each, the most serious first."""
from __future__ import annotations

from typing import Any, Dict, List

from ..change.report import count
from ..program import documents
from .checks import Checked
from .finding import KINDS, Finding

# So many of a kind are told, unless all are asked for.
SHOWN = 5


def _line(found: Finding) -> str:
    return "  %s: %s; look at %s" % (KINDS[found.kind], found.text, found.look)


def _listed(found: List[Finding], is_all: bool) -> List[str]:
    """The findings, the first ones of many of a kind."""
    lines = []
    for kind in dict.fromkeys(each.kind for each in found):
        same = [each for each in found if each.kind == kind]
        shown = same if is_all else same[:SHOWN]
        lines += list(map(_line, shown))
        if len(same) > len(shown):
            lines.append("  %s: and %d more (--all shows them)" % (KINDS[kind], len(same) - len(shown)))
    return lines


def summary(checked: Checked) -> str:
    """How much was found, by kind, in what."""
    kinds = dict.fromkeys(each.kind for each in checked.wrong)
    told = ", ".join("%s %d" % (KINDS[kind], sum(each.kind == kind for each in checked.wrong)) for kind in kinds)
    return "%s: %s%s, %s; %s, %s, %s followed" % (
        checked.script, count(len(checked.wrong), "finding"), " (%s)" % told if told else "",
        count(len(checked.notes), "note"), count(checked.routers, "router"),
        count(checked.prefixes, "prefix", "prefixes"), count(checked.packets, "packet"))


def text_of(checked: Checked, is_all: bool) -> str:
    """All findings, then the notes."""
    lines = [summary(checked)] + _listed(checked.wrong, is_all)
    lines += (["Notes"] if checked.notes else []) + _listed(checked.notes, is_all)
    return "\n".join(lines) + "\n"


def _row(found: Finding) -> Dict[str, Any]:
    return {"kind": found.kind, "note": found.is_note, "text": found.text, "look_at": found.look, "count": found.count,
            "router": found.router, "prefixes": list(found.prefixes), "way": found.way}


def json_of(checked: Checked) -> str:
    """The same for a program."""
    return documents.text_of(documents.document(
        "check", script=checked.script, findings=[_row(each) for each in checked.found], routers=checked.routers,
        prefixes=checked.prefixes, packets=checked.packets, names=checked.names.of))
