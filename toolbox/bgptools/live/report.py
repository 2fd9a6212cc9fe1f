"""Real routers beside simulated ones, told to a reader and to a program."""
from __future__ import annotations

from typing import Any, Dict, List

from ..change.report import SHOWN, count
from ..program.documents import Document, document
from ..program.names import Names
from .comparison import Comparison, RouteDifference


def text_of(found: Comparison, names: Names, is_all: bool) -> str:
    """Counts first, then differences by router and prefix, then what is unknown."""
    lines = ["%s, %s, %d unknown" % (count(found.agreed, "route agrees", "routes agree"),
                                     count(len(found.differences), "differs", "differ"), len(found.unknown))]
    by_router: Dict[str, List[RouteDifference]] = {}
    for each in found.differences:
        by_router.setdefault(each.router, []).append(each)
    for router, differences in by_router.items():
        lines += ["Router " + names.shown(router)]
        lines += _cut(["  %s %s" % (each.prefix, _difference(each, names)) for each in differences], is_all)
    lines += ["Unknown"] if found.unknown else []
    lines += _cut(["  %s: %s" % (" ".join(filter(None, (names.shown(each.router), each.prefix))), each.reason)
                   for each in found.unknown], is_all)
    lines += ["Not compared, since the answers or the files do not say it: %s of %s" % (
        name, count(number, "route")) for name, number in found.partly.items()]
    return "\n".join(lines) + "\n"


def _cut(lines: List[str], is_all: bool) -> List[str]:
    left = 0 if is_all else max(len(lines) - SHOWN, 0)
    return lines[:len(lines) - left] + (["  and %d more (--all shows them)" % left] if left else [])


def _difference(each: RouteDifference, names: Names) -> str:
    if each.only:
        return "only in the real router" if each.only == "live" else "only in the simulated router"
    return "; ".join("%s is %s, simulated %s" % (name, names.shown(one), names.shown(other))
                     for name, one, other in each.attributes)


def document_of(answers: str, network: str, found: Comparison, names: Names) -> Document:
    """The comparison for a program."""
    differences: List[Dict[str, Any]] = [
        {"router": each.router, "prefix": each.prefix, "only": each.only or None,
         "attributes": [each._asdict() for each in each.attributes]} for each in found.differences]
    unknown = [{"router": each.router, "prefix": each.prefix or None, "reason": each.reason} for each in found.unknown]
    return document("compare-live", answers=answers, network=network, agreed=found.agreed, differences=differences,
                    unknown=unknown, not_compared=found.partly, names=names.of)
