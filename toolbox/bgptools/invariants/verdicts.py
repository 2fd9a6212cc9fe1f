"""Which invariants a converged network breaks, and how."""
from __future__ import annotations

from dataclasses import dataclass
from typing import Callable, Dict, Iterator, List, Optional, Tuple

from ..network.configuration import Direction
from ..program.language import as_path, contains, neighbour, prefix
from ..program.replies import Route, Trace, trace_text
from .language import Invariant, Invariants
from .roles import CUSTOMER, Roles
from .state import State

LEAK, BROKEN = "leak", "invariant"
# So many prefixes, or ASes, are named of many.
NAMED = 3


@dataclass(frozen=True)
class Breach:
    """What breaks an invariant: in a sentence, with the router that it is at, prefixes, the way of a packet and the
    peer, where it is about one. `rule` is the line of the file; roles are broken by what no line says alone."""
    kind: str
    text: str
    router: Optional[str] = None
    prefixes: Tuple[str, ...] = ()
    way: Optional[Trace] = None
    peer: Optional[str] = None
    rule: Optional[Invariant] = None


def named(items: List[str]) -> str:
    """The first of some items, and how many there are behind these."""
    more = " and %d more" % (len(items) - NAMED) if len(items) > NAMED else ""
    return ", ".join(items[:NAMED]) + more


def breaches(invariants: Invariants, state: State) -> List[Breach]:
    """All that is broken: leaks first, then the others in the order of their lines."""
    found = list(_leaks_by_roles(invariants.roles, state)) if invariants.roles.is_any else []
    found += [each for rule in invariants.listed for each in _KINDS[rule.kind](rule, state)]
    return sorted(found, key=lambda each: each.kind != LEAK)


def holds(route: Route, asn: int) -> bool:
    """Whether the path of a route holds an AS."""
    return any(asn in numbers for _, numbers in as_path(route.attributes.path) or [])


def external_ways(state: State) -> List[Direction]:
    """The directions of external sessions in which a router sends, in order."""
    network = state.network
    both = [way for one, other in network.sessions() for way in ((one, other), (other, one))]
    return [way for way in both if network.is_router(way[0]) and network.is_external(*way)]


# Packets

def _reaches(rule: Invariant, state: State) -> Iterator[Breach]:
    """A packet reaches the prefix: from a router, or from each that originates another prefix."""
    start, to = rule.router(0), rule.router(1)
    starts = [start] if prefix(start) is None else _origins(start, state)
    if not starts:
        yield Breach(BROKEN, "`%s`: no router originates %s, and no virtual peer feeds it" % (rule.text, start),
                     None, (start,), None, None, rule)
    at = state.probe(to)
    for router, way in ((router, state.way(router, at)) for router in starts):
        if way.end != "reached":
            yield Breach(BROKEN, _with_way(rule, way, state), router, (to,), way, None, rule)


def _origins(to: str, state: State) -> List[str]:
    """The routers that originate a prefix, or are fed it."""
    network = state.network
    fed = {router for virtual in network.virtuals() for router in network.peers.get(virtual, ())
           if to in state.received(router, virtual)}
    return [router for router in network.routers() if router in fed or to in network.origins.get(router, ())]


def _with_way(rule: Invariant, way: Trace, state: State) -> str:
    return "`%s`: %s" % (rule.text, trace_text(way, state.network.names))


def _avoids(rule: Invariant, state: State) -> Iterator[Breach]:
    """Neither the way of a packet nor the AS_PATH behind it passes an AS, or a router."""
    router, target, to = rule.router(0), rule.values[1], rule.router(2)
    way = state.way(router, state.probe(to))
    passed = way.routers[1:]
    if isinstance(target, str):
        is_bad = target in passed
    else:
        is_bad = any(state.network.nodes[each].asn == target for each in passed if each in state.network.nodes)
        first = state.routes[router].get(way.hops[0].prefix) if way.hops else None
        is_bad = is_bad or first is not None and isinstance(target, int) and holds(first, target)
    if is_bad:
        yield Breach(BROKEN, _with_way(rule, way, state), router, (to,), way, None, rule)


# Routes

def _prefers(rule: Invariant, state: State) -> Iterator[Breach]:
    """Where the AS of a router has a route of the first AS, the router has not chosen one of the second."""
    router, better, worse, to = rule.router(0), rule.asn(1), rule.asn(2), rule.router(3)
    chosen = state.routes[router].get(to)
    if chosen is None or neighbour(chosen.attributes.path) != worse:
        return
    network, own = state.network, state.network.nodes[router].asn
    there = [way for way in ((peer, each) for each in network.routers() if network.nodes[each].asn == own
                             for peer in sorted(network.peers.get(each, ())))
             if network.nodes[way[0]].asn == better and to in state.received(way[1], way[0])]
    if there:
        shown = network.names.shown
        yield Breach(BROKEN, "`%s`: it chose the route from %s, though %s has one from %s" % (
            rule.text, shown(str(chosen.source)), shown(there[0][1]), shown(there[0][0])), router, (to,), None, None, rule)


def _no_route(rule: Invariant, state: State) -> Iterator[Breach]:
    """No router of another AS advertises to an AS a route whose path holds the first one."""
    of, to = rule.asn(0), rule.asn(1)
    nodes = state.network.nodes
    ways = [way for way in external_ways(state) if nodes[way[1]].asn == to and nodes[way[0]].asn != of]
    held = state.held(ways)
    for way in ways:
        prefixes = [each for each, route in held[way].items() if holds(route, of) and not holds(route, to)]
        if prefixes:
            yield Breach(LEAK, "`%s`: %s" % (rule.text, _advertised(way, prefixes, state)), way[0], tuple(prefixes),
                         None, way[1], rule)


def _advertised(way: Direction, prefixes: List[str], state: State) -> str:
    return "%s advertises %s to %s" % (state.network.names.shown(way[0]), named(prefixes),
                                       state.network.names.shown(way[1]))


def _isolation(rule: Invariant, state: State) -> Iterator[Breach]:
    """Nobody in an AS has a route to a prefix, or to a longer one inside it, and no packet from there reaches it."""
    to, asn = rule.router(0), rule.asn(1)
    network = state.network
    for router in (each for each in network.routers() if network.nodes[each].asn == asn):
        prefixes = _inside(to, state.routes[router])
        way = state.way(router, state.probe(to))
        if prefixes or way.end == "reached":
            yield Breach(BROKEN, _with_way(rule, way, state), router, tuple(prefixes) or (to,), way, None, rule)
    ways = [way for way in external_ways(state) if network.nodes[way[1]].asn == asn and not network.is_router(way[1])]
    for way_to in ways:
        told = _inside(to, state.received(way_to[1], way_to[0]))
        if told:
            yield Breach(BROKEN, "`%s`: %s" % (rule.text, _advertised(way_to, told, state)), way_to[0], tuple(told),
                         None, way_to[1], rule)


def _inside(to: str, known: Dict[str, Route]) -> List[str]:
    """The prefixes of routes that are a prefix, or inside it."""
    outer, values = prefix(to), [(each, prefix(each)) for each in known]
    return [each for each, value in values if outer and value and contains(outer, value)]


# Roles

def _leaks_by_roles(roles: Roles, state: State) -> Iterator[Breach]:
    """What providers and peers told goes to no provider or peer (RFC 9234, 5)."""
    names, nodes = state.network.names, state.network.nodes
    for way, passed in passed_on(state).items():
        own, to = nodes[way[0]].asn, nodes[way[1]].asn
        role = roles.role(own, to)
        if role in (None, CUSTOMER):
            continue
        leaked = {asn: prefixes for asn, prefixes in passed.items()
                  if roles.role(own, asn) not in (None, CUSTOMER)}
        if leaked:
            prefixes = [each for asn in leaked for each in leaked[asn]]
            sources = ["AS %d, a %s" % (asn, roles.role(own, asn)) for asn in leaked]
            way_there = state.way(way[0], state.probe(prefixes[0]))
            yield Breach(LEAK, "%s tells %s, a %s, %s, learned from %s; packets go %s" % (
                names.shown(way[0]), names.shown(way[1]), role, named(prefixes), named(sources),
                trace_text(way_there, names)), way[0], tuple(prefixes), way_there, way[1])


def passed_on(state: State) -> Dict[Direction, Dict[int, List[str]]]:
    """What routers advertise to other ASes of what their AS learned from others: for each direction the ASes that it
    was learned from, with the prefixes. A path that holds the receiver is left out: the receiver excludes it."""
    ways, found = external_ways(state), {}  # type: List[Direction], Dict[Direction, Dict[int, List[str]]]
    held, nodes = state.held(ways), state.network.nodes
    for way in ways:
        for to, route in held[way].items():
            chosen = state.routes[way[0]].get(to)
            asn = neighbour(chosen.attributes.path) if chosen else None
            if asn is not None and asn != nodes[way[1]].asn and not holds(route, nodes[way[1]].asn):
                found.setdefault(way, {}).setdefault(asn, []).append(to)
    return found


_KINDS: Dict[str, Callable[[Invariant, State], Iterator[Breach]]] = {
    "reaches": _reaches, "avoids": _avoids, "prefers": _prefers, "route": _no_route, "isolation": _isolation}
