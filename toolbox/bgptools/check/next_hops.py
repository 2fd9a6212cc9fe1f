"""Routes that are excluded since there is no way to their next hop."""
from __future__ import annotations

from typing import Dict, Iterator, List, Tuple

from ..invariants.verdicts import named
from ..program.replies import reasons
from .finding import Finding
from .forwarding import Ways


def unresolved(ways: Ways) -> Iterator[Finding]:
    """Of each router and next hop the routes that are excluded by it, where the program says so."""
    state, network = ways.state, ways.state.network
    both = [(peer, router) for router in ways.routers for peer in sorted(network.peers.get(router, ()))]
    held = state.held(both)
    hops: Dict[Tuple[str, str], Dict[str, List[str]]] = {}
    for way in both:
        for to, route in held[way].items():
            hops.setdefault((way[1], route.attributes.next), {}).setdefault(to, []).append(way[0])
    costs = state.answers.ask("cost %s %s" % each for each in hops)
    for (router, hop), cost in zip(list(hops), costs):
        if cost == ["none"]:
            yield from _excluded(ways, router, hop, hops[router, hop])


def _excluded(ways: Ways, router: str, hop: str, routes: Dict[str, List[str]]) -> Iterator[Finding]:
    """The finding of a router and a next hop to which it has no cost; none where other reasons exclude the routes."""
    state, shown = ways.state, ways.state.network.names.shown
    replies = state.answers.ask("why %s %s" % (router, to) for to in routes)
    by = {to: [source for source, reason in reasons(reply) if reason == "unresolved" and source in routes[to]]
          for to, reply in zip(routes, replies)}
    bad = [to for to in routes if by[to]]
    if bad:
        peer = by[bad[0]][0]
        text = "%s at %s: the route from %s is excluded, since there is no way to its next hop %s" % (
            named(bad), shown(router), shown(peer), shown(hop))
        look = "links to %s, or `self %s %s on`" % (shown(hop), peer, router)
        yield Finding("next-hop", text, look, len(bad), router, tuple(bad))
