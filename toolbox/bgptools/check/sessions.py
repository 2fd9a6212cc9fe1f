"""Sessions that are down, and why; ASes whose routers have no way to one another."""
from __future__ import annotations

from typing import Dict, FrozenSet, Iterator, List

from ..invariants.state import State
from ..invariants.verdicts import named
from ..network.configuration import Direction, ends
from ..network.graph_search import hops, neighbours
from ..network.refusals import session_down
from ..program.language import by_address
from .finding import Finding


def parts_of(state: State) -> Dict[int, List[FrozenSet[str]]]:
    """The routers of each AS that reach one another over its links that are up: the parts, the largest first."""
    network = state.network
    links = [ends(both) for both, link in network.links.items() if link.is_up]
    near = neighbours((one, other) for one, other in links if not network.is_external(one, other))
    found: Dict[int, List[FrozenSet[str]]] = {}
    known: Dict[str, FrozenSet[str]] = {}
    for router in network.routers():
        if router not in known:
            part = frozenset(hops(near, router))
            known.update((each, part) for each in part)
            found.setdefault(network.nodes[router].asn, []).append(part)
    return {asn: sorted(parts, key=lambda part: -len(part)) for asn, parts in found.items()}


def down(state: State) -> Iterator[Finding]:
    """Each AS that is in parts, with the sessions that are down by it; and each other session that is down."""
    network, sessions = state.network, [way for way, is_up in state.up.items() if not is_up]
    parts = {asn: found for asn, found in parts_of(state).items() if len(found) > 1}
    by_parts: Dict[int, List[Direction]] = {}
    for one, other in sessions:
        asn = network.nodes[one].asn
        if not network.is_external(one, other) and network.enabled[frozenset((one, other))] and asn in parts:
            by_parts.setdefault(asn, []).append((one, other))
        else:
            why = network.names.in_text(session_down(["", one, other], network))
            yield Finding("session", why, "`%s %s %s`" % (
                "mend" if network.enabled[frozenset((one, other))] else "start", one, other), 1, one)
    for asn, ways in by_parts.items():
        yield _partition(state, asn, parts[asn], len(ways))


def _partition(state: State, asn: int, parts: List[FrozenSet[str]], count: int) -> Finding:
    network, shown = state.network, state.network.names.shown
    place = {router: at for at, part in enumerate(parts) for router in part}
    links = [ends(both) for both, link in network.links.items() if not link.is_up and both <= place.keys()]
    failed = sorted("%s and %s" % (shown(one), shown(other)) for one, other in links if place[one] != place[other])
    told = ["%d routers (%s)" % (len(part), named([shown(each) for each in sorted(part, key=by_address)]))
            for part in parts]
    text = "AS %d is in %d parts with no way between them: %s; %d sessions are down by it" % (
        asn, len(parts), named(told), count)
    look = "links that have failed between %s" % named(failed) if failed else "links between the parts: there is none"
    return Finding("partition", text, look, count, min(parts[-1], key=by_address))
