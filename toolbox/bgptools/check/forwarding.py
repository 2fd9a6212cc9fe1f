"""Where packets end: in loops, in black holes, at a router that has no route though others have one."""
from __future__ import annotations

from typing import Callable, Dict, FrozenSet, Hashable, Iterator, List, Set, Tuple

from ..invariants.state import Packet, State
from ..invariants.verdicts import named
from ..program.language import by_address
from ..program.reasons import named as reason_named
from ..program.replies import Trace, reasons, trace_text
from .finding import Finding

# A router with a prefix.
Cell = Tuple[str, str]


class Ways:
    """The ways of packets from each router to an address of each prefix, by how they end."""

    def __init__(self, state: State, script: str) -> None:
        self.state, self.script = state, script
        self.routers = state.network.routers()
        packets = [(router, at) for at in state.probes.values() for router in self.routers]
        self.ways = state.follow(packets)
        self.to = {at: to for to, at in state.probes.items()}
        self.count = len(packets)

    def ended(self, is_wanted: Callable[[Trace], bool]) -> List[Tuple[Packet, Trace]]:
        """The packets whose way is wanted, by prefix and router."""
        packets = [(router, at) for at in self.state.probes.values() for router in self.routers]
        return [(packet, self.ways[packet]) for packet in packets if is_wanted(self.ways[packet])]

    def look(self, router: str, to: str) -> str:
        """The call that explains a route."""
        name = self.state.network.names.of.get(router, router)
        return "`explain %s %s %s --converge`" % (self.script, name, to)


def cycle(way: Trace) -> List[str]:
    """The routers of a loop, in order, from where it ends."""
    routers = [hop.router for hop in way.hops]
    return routers[routers.index(way.place):] if way.place in routers else routers


class Group:
    """Packets that end alike: their routers, the prefixes, and the shortest way of them."""

    def __init__(self, way: Trace) -> None:
        self.routers: Set[str] = set()
        self.prefixes: Dict[str, None] = {}
        self.count, self.way = 0, way

    def add(self, router: str, to: str, way: Trace) -> None:
        """One more packet."""
        self.routers.add(router)
        self.prefixes[to] = None
        self.count += 1
        if len(way.hops) < len(self.way.hops):
            self.way = way


def _grouped(ways: Ways, ended: List[Tuple[Packet, Trace]], key: Callable[[Trace], Hashable]) -> List[Group]:
    found: Dict[Hashable, Group] = {}
    for (router, at), way in ended:
        found.setdefault(key(way), Group(way)).add(router, ways.to[at], way)
    return list(found.values())


def _told(ways: Ways, kind: str, group: Group, at: str, words: str) -> Finding:
    """A finding of packets that end alike at a router."""
    prefixes = tuple(group.prefixes)
    text = "%s at %s: %s; %s" % (named(list(prefixes)), ways.state.network.names.shown(at),
                                 trace_text(group.way, ways.state.network.names), words)
    return Finding(kind, text, ways.look(at, prefixes[0]), group.count, at, prefixes, group.way)


def loops(ways: Ways) -> Iterator[Finding]:
    """Each set of routers in which packets go round."""
    for group in _grouped(ways, ways.ended(lambda way: way.end == "loop"), lambda way: frozenset(cycle(way))):
        first = min(cycle(group.way), key=by_address)
        yield _told(ways, "loop", group, first, "packets of %d routers" % len(group.routers))


def black_holes(ways: Ways) -> Iterator[Finding]:
    """Each router at which packets that others sent there end without a route."""
    ended = ways.ended(lambda way: way.end == "noroute" and bool(way.hops))
    for group in _grouped(ways, ended, lambda way: way.place):
        yield _told(ways, "black-hole", group, group.way.place, "packets of %d routers" % len(group.routers))


def lacking(ways: Ways, spared: Set[Cell]) -> Iterator[Finding]:
    """Prefixes of which some routers have no route, nor one to a shorter prefix, and others have one. What is spared is
    meant so."""
    state, holes = ways.state, {}  # type: State, Dict[str, Set[str]]
    for (router, at), _ in ways.ended(lambda way: way.end == "noroute" and not way.hops):
        holes.setdefault(ways.to[at], set()).add(router)
    groups: Dict[FrozenSet[str], List[str]] = {}
    for to, routers in holes.items():
        if any(to in known for known in state.routes.values()):
            left = frozenset(each for each in routers if (each, to) not in spared)
            groups.setdefault(left, []).append(to)
    for left, prefixes in groups.items():
        if left:
            yield _lacking(ways, sorted(left, key=by_address), prefixes)


def _lacking(ways: Ways, routers: List[str], prefixes: List[str]) -> Finding:
    state, shown = ways.state, ways.state.network.names.shown
    having = sum(prefixes[0] in known for known in state.routes.values())
    first = routers[0]
    told = reasons(state.answers.ask(["why %s %s" % (first, prefixes[0])])[0])
    why = "; ".join("from %s %s" % (shown(source), reason_named(reason)) for source, reason in told[:2])
    text = "no route to %s at %s, though %d routers have one: %s" % (
        named(prefixes), named([shown(each) for each in routers]), having,
        why or "no peer tells %s one" % shown(first))
    return Finding("lacking", text, ways.look(first, prefixes[0]), len(routers) * len(prefixes), first, tuple(prefixes))
