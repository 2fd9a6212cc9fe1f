"""Routes that come by one session alone."""
from __future__ import annotations

from typing import Dict, Iterator, List, Set, Tuple

from ..invariants.state import State
from ..invariants.verdicts import named, holds
from ..network.advertisement import permits
from ..network.configuration import Direction
from .finding import Finding


def _eligible(state: State, ways: List[Direction]) -> Dict[Direction, Set[str]]:
    """For each direction the prefixes of which the receiver may use what it received: no own AS in the path, and no
    import rule against it."""
    held, network = state.held(ways), state.network
    found = {}
    for peer, router in ways:
        rules, asn = network.rules.get((router, peer, "in"), []), network.nodes[router].asn
        found[peer, router] = {to for to, route in held[peer, router].items() if not holds(route, asn) and permits(
            rules, to, route.attributes.path, route.attributes.communities)}
    return found


def single_sessions(state: State) -> Iterator[Finding]:
    """Sessions by which alone an AS learns prefixes from others, or a router those that a reflector passes on."""
    network, shown = state.network, state.network.names.shown
    both = [(peer, router) for router in network.routers() for peer in sorted(network.peers.get(router, ()))]
    known = _eligible(state, both)
    outside: Dict[Tuple[int, str], List[Direction]] = {}
    inside: Dict[Tuple[str, str], List[Direction]] = {}
    for way in both:
        for to in known[way]:
            if network.is_external(*way):
                outside.setdefault((network.nodes[way[1]].asn, to), []).append(way)
            else:
                inside.setdefault((way[1], to), []).append(way)
    own = {(network.nodes[router].asn, to) for router, origins in network.origins.items() for to in origins}
    single: Dict[Direction, List[str]] = {}
    for (asn, to), ways in outside.items():
        if len(ways) == 1 and (asn, to) not in own:
            single.setdefault(ways[0], []).append(to)
    for (router, to), ways in inside.items():
        if len(ways) == 1 and _is_reflected(state, ways[0], to) and not _has_other(state, router, to):
            single.setdefault(ways[0], []).append(to)
    for (peer, router), prefixes in single.items():
        listed = sorted(prefixes)
        text = "%s has %s by its session with %s alone" % (shown(router), named(listed), shown(peer))
        yield Finding("single-session", text, "`sweep --fail-sessions`", len(listed), router, tuple(listed))


def _is_reflected(state: State, way: Direction, to: str) -> bool:
    """Whether a peer passes on a route that it has from inside the AS itself."""
    chosen = state.routes[way[0]].get(to)
    return bool(chosen and chosen.source != "self" and chosen.source
                and not state.network.is_external(way[0], chosen.source))


def _has_other(state: State, router: str, to: str) -> bool:
    """Whether a router has a route of its own, or from another AS."""
    chosen = state.routes[router].get(to)
    return bool(chosen and chosen.source and (chosen.source == "self" or state.network.is_external(router, chosen.source)))
