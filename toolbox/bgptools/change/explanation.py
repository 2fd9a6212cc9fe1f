"""Why a router chose a route: against which each other one lost, and by which value."""
from __future__ import annotations

from dataclasses import dataclass
from typing import Dict, List, Optional

from ..convergence.run import Run
from ..network.configuration import Network
from ..network.selection import Candidate
from ..program import communities
from ..program.language import neighbour
from ..program.language_table import BEST
from ..program.reasons import FILTER, FILTER_NAMES, reason_text
from ..program.replies import Attributes, Route, best, reasons, routes



@dataclass
class Explained:
    """A route of a router, with its reason. A route that is considered has its attributes after the import policy, any other as received."""
    source: str
    reason: str
    attributes: Optional[Attributes]
    is_external: bool = True
    cost: int = 0
    ident: str = ""
    peer: str = ""
    is_excluded: bool = False

    def value(self, name: str) -> int:
        """What a filter compares, so that less is better."""
        assert self.attributes
        return Candidate(self.source, self.attributes, self.is_external, self.cost, self.ident, self.peer).value(name)

    def shown(self, name: str) -> str:
        """The same as it is told."""
        assert self.attributes
        if name == "med":
            return "%s (missing)" % 0 if self.attributes.med == "-" else self.attributes.med
        return {"pref": self.attributes.pref, "origin": self.attributes.origin, "ident": self.ident, "peer": self.peer}.get(name) or str(self.value(name))


def explain(run: Run, router: str, to: str) -> List[Explained]:
    """All routes of the router to the prefix, in the order of `why`."""
    told = reasons(run.ask(["why %s %s" % (router, to)])[0])
    considered = _considered(run, router, to)
    found = []
    for source, reason in told:
        if source in considered:
            found.append(_candidate(run, router, source, reason, considered[source].attributes))
        else:
            received = routes(run.ask(["in %s %s" % (router, source)])[0]) if source != "self" else {}
            found.append(Explained(source, reason, received[to].attributes if to in received else None, is_excluded=True))
    return found


def _considered(run: Run, router: str, to: str) -> Dict[str, Route]:
    """Each route that may be chosen, as it stands after the import policy.

    The program tells that of the chosen route alone. So the same network is run beside it, and there each chosen route is taken away in turn:
    its session is stopped, or the prefix is no longer originated. Neither changes how another route stands."""
    found: Dict[str, Route] = {}
    with Run() as other:
        other.repeat(run.lines)
        while True:
            chosen = best(other.program.say("best %s %s" % (router, to)))
            if chosen is None or chosen.source is None:
                return found
            found[chosen.source] = chosen
            other.program.say("noorigin %s %s" % (router, to) if chosen.source == "self" else "stop %s %s" % (router, chosen.source))


def _candidate(run: Run, router: str, source: str, reason: str, attributes: Attributes) -> Explained:
    if source == "self":
        return Explained(source, reason, attributes, True, 0, router, router)
    cost = run.ask(["cost %s %s" % (router, attributes.next)])[0][0]
    ident = source if attributes.oid == "-" else attributes.oid
    return Explained(source, reason, attributes, run.network.is_external(router, source), int(cost.split(" ")[0]), ident, source)


def winner(lost: Explained, among: List[Explained], is_med_always: bool) -> Optional[Explained]:
    """The route by which this one was dropped: of those still there at its filter that beat it, the best by that filter's value."""
    name = lost.reason
    if name not in FILTER:
        return None
    there = [each for each in among if not each.is_excluded and each.attributes and (_stage(each) >= FILTER_NAMES.index(name))]
    if name == "med" and lost.attributes and not is_med_always:
        there = [each for each in there if each.attributes and neighbour(each.attributes.path) == neighbour(lost.attributes.path)]
    better = [each for each in there if each.value(name) < lost.value(name)]
    return min(better, key=lambda each: (each.value(name), each.reason != "best")) if better else None


def _stage(one: Explained) -> int:
    """At which filter a route was dropped; past all of them where at none that is known."""
    return FILTER_NAMES.index(one.reason) if one.reason in FILTER else len(FILTER_NAMES)


def _compared(lost: Explained, is_med_always: bool) -> str:
    """Among which routes MED was compared."""
    asn = neighbour(lost.attributes.path) if lost.attributes else None
    if is_med_always:
        return "over all neighbours"
    return "among routes of AS %d" % asn if asn else "among routes without a neighbouring AS"


def _said(how: str, reason: str, is_med_always: bool) -> str:
    """How it went for a route, by which reason, and what that means where it is known."""
    return ": ".join(filter(None, ("%s (%s)" % (how, reason), reason_text(reason, is_med_always))))


def verdict(one: Explained, among: List[Explained], router: str, network: Network) -> str:
    """Why a route of the router was chosen or not, in a few words."""
    is_med_always = router in network.med_always
    if one.reason == BEST:
        return "chosen"
    if one.is_excluded or not one.attributes:
        return _said("excluded", one.reason, is_med_always)
    by = winner(one, among, is_med_always)
    if by is None:
        return _said("lost", one.reason, is_med_always)
    shown = network.names.shown(by.source)
    if one.reason == "external":
        return "lost by external: it came from inside the AS, that of %s from another" % shown
    text = "lost by %s: %s against %s of %s" % (FILTER[one.reason].value, one.shown(one.reason), by.shown(one.reason), shown)
    return text + (", compared " + _compared(one, is_med_always) if one.reason == "med" else "")


def text_of(router: str, to: str, found: List[Explained], network: Network) -> str:
    """The explanation for a reader."""
    names = network.names
    lines = ["%s at %s: %s" % (to, names.shown(router), "no route" if not found else "1 route" if len(found) == 1 else "%d routes" % len(found))]
    for one in found:
        source = "its own" if one.source == "self" else "from " + names.shown(one.source)
        lines.append("  %-20s %s" % (source, verdict(one, found, router, network)))
        if one.attributes:
            shown = communities.in_text(str(one.attributes))
            lines.append("      %s%s" % (shown, " (as received)" if one.is_excluded else ", cost %d" % one.cost))
            reach = communities.reach(one.attributes.communities) if one.reason == "best" else ""
            lines += ["      " + reach] if reach else []
    return "\n".join(lines) + "\n"
