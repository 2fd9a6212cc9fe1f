"""Asks a run what a picture is to show: who has which route and by which value, where packets go, what waits and what
was just delivered."""
from __future__ import annotations

from dataclasses import dataclass, field
from typing import Dict, List, Optional, Set, Tuple

from ..change.explanation import Explained
from ..convergence.run import Run
from ..network.configuration import Direction, Network, ends
from ..program import communities
from ..program.language import QUESTIONS, by_address
from ..program.language_table import FORMS
from ..program.reasons import FILTER, FILTER_NAMES
from ..program.replies import Attributes, Route, Trace, best, reasons, routes, trace
from .scene import DOWN, EXTERNAL, FORWARDS, INTERNAL, LINK, WAY, Scene, Spot, Wire, readable

LONGEST_PATH, MOST_COMMUNITIES = 24, 2
# After these commands costs are what they were, and sessions are up or down as before.
KEEPING = frozenset(form.name for form in FORMS if form.scope in ("", "router"))
Delivered = Dict[Direction, List[str]]


@dataclass
class View:
    """What is asked to be shown: the routes to a prefix, the way of a packet, and which routers and peers; nothing
    stands for all."""
    prefix: Optional[str] = None
    way: Optional[Direction] = None
    has_sessions: bool = True
    shown: Optional[Set[str]] = None
    is_of_ases: bool = False
    notes: List[str] = field(default_factory=list)

    def has(self, *where: str) -> bool:
        """Whether all of these are shown."""
        return self.shown is None or self.shown.issuperset(where)


@dataclass
class Known:
    """What the program told already, and what has to be asked again: routers, and queues; nothing stands for all."""
    costs: Dict[Direction, List[str]] = field(default_factory=dict)
    ups: Dict[Direction, bool] = field(default_factory=dict)
    chosen: Dict[str, Optional[Route]] = field(default_factory=dict)
    whys: Dict[str, List[Tuple[str, str]]] = field(default_factory=dict)
    waiting: Dict[Direction, int] = field(default_factory=dict)
    routers: Optional[Set[str]] = None
    queues: Optional[Set[Direction]] = None

    def after(self, words: List[str], network: Network) -> None:
        """Notes what an accepted command may have changed. A message changes its receiver alone, a setting its router,
        a session its ends, and a link the ASes at its ends."""
        if words[0] in QUESTIONS:
            return
        if words[0] in ("router", "virtual", "deliver"):
            who = {words[2] if words[0] == "deliver" else words[1]}
        else:
            who = network.may_send(words) or set()
        if words[0] not in KEEPING:
            self.costs = {way: told for way, told in self.costs.items() if way[0] not in who}
            self.ups = {ends: is_up for ends, is_up in self.ups.items() if who.isdisjoint(ends)}
        if self.routers is not None:
            self.routers |= who
        if self.queues is not None:
            self.queues.add((words[1], words[2]))
            self.queues |= {way for a in who for peer in network.peers.get(a, ()) for way in ((a, peer), (peer, a))}

    def forget(self) -> None:
        """All routes and queues have to be asked again."""
        self.routers = self.queues = None


class Look:
    """One look at a run. `delivered` is what messages were taken just before."""

    def __init__(self, run: Run, view: View, way: Optional[Direction], delivered: Delivered, known: Known) -> None:
        self.run, self.network, self.view, self.delivered, self.known = run, run.network, view, delivered, known
        self.names = run.network.names
        self.nodes = [a for a in sorted(run.network.nodes, key=by_address) if view.has(a)]
        self.routers = [a for a in self.nodes if run.network.is_router(a)]
        self.trace = _trace(run, way)
        self.way = way
        self.chosen: Dict[str, Optional[Route]] = {}
        self.costs: Dict[str, List[str]] = {}
        self.told: Dict[str, List[Attributes]] = {}
        if view.prefix is not None:
            self._ask_of(view.prefix)

    def _ask_of(self, prefix: str) -> None:
        """Asks for the routes to the prefix, the ways to their next hops, and why they were chosen."""
        known = self.known
        new = [a for a in self.routers if known.routers is None or a in known.routers]
        told = self.run.ask(["best %s %s" % (a, prefix) for a in new] + ["why %s %s" % (a, prefix) for a in new])
        known.chosen.update(zip(new, map(best, told[:len(new)])))
        known.whys.update(zip(new, map(reasons, told[len(new):])))
        known.routers = set()
        self.chosen = {a: known.chosen[a] for a in self.routers}
        hops = {a: (a, route.attributes.next)
                for a, route in self.chosen.items() if route is not None and route.source != "self"}
        ways = [way for way in hops.values() if way not in self.known.costs]
        replies = self.run.ask("cost %s %s" % way for way in ways)
        self.known.costs.update(zip(ways, (reply[0].split(" ") for reply in replies)))
        self.costs = {a: self.known.costs[way] for a, way in hops.items() if self.known.costs[way] != ["none"]}
        self.told = _told(self.run, prefix, self.view)

    def scene(self) -> Scene:
        """What is seen."""
        groups: Dict[int, List[str]] = {}
        for a in self.nodes:
            groups.setdefault(self.network.nodes[a].asn, []).append(a)
        spots = {a: self._spot(a) for a in self.nodes}
        wires = self._links() + (self._sessions() if self.view.has_sessions else [])
        return Scene(self._titles(), groups, spots, wires)

    def _short(self, where: str) -> str:
        """A router in the picture, whose address stands in it."""
        return readable(self.names.of.get(where, where))

    def _spot(self, a: str) -> Spot:
        is_virtual = self.network.nodes[a].is_virtual
        is_on_way = self.trace is not None and a in self.trace.routers
        below = a if a in self.names.of else ""
        return Spot(self._short(a), below, self._details(a, is_virtual), is_virtual, self._is_exit(a), is_on_way)

    def _details(self, a: str, is_virtual: bool) -> List[str]:
        if is_virtual:
            told = self.told.get(a, [])[:3]
            return [line for each in told for line in ["told path " + shortened(each.path)] + carried(each)]
        if self.view.prefix is not None:
            return self._route_lines(a, self.chosen[a])
        own = sorted(self.network.origins.get(a, ()))
        return own[:3] + ([".."] if len(own) > 3 else [])

    def _route_lines(self, a: str, route: Optional[Route]) -> List[str]:
        if route is None:
            return ["no route"]
        text, value = route.attributes, self._deciding(a, route)
        source = ["from " + self._short(str(route.source)), "path " + shortened(text.path)]
        lines = ["its own"] if route.source == "self" else source
        by_preference = value is not None and value.startswith("by preference")
        lines += [] if text.pref == "100" or by_preference else ["pref " + text.pref]
        reach = communities.reach(text.communities)
        lines += carried(text) + ([reach] if reach else [])
        return lines + ([value] if value else [])

    def _deciding(self, a: str, route: Route) -> Optional[str]:
        """The value by which the last other route lost against the chosen one; nothing where there was no other."""
        lost = [FILTER_NAMES.index(reason) for _, reason in self.known.whys[a] if reason in FILTER]
        if not lost:
            return None
        name, is_own = FILTER_NAMES[max(lost)], route.source == "self"
        peer = a if is_own else str(route.source)
        ident = peer if route.attributes.oid == "-" else route.attributes.oid
        cost = int(self.costs[a][0]) if a in self.costs else 0
        is_external = is_own or self.network.is_external(a, peer)
        chosen = Explained(peer, "best", route.attributes, is_external, cost, ident, peer)
        by = "by %s%s" % (FILTER[name].short, "" if name == "external" else " " + chosen.shown(name))
        return by + (" over all neighbours" if name == "med" and a in self.network.med_always else "")

    def _is_exit(self, a: str) -> bool:
        """Whether packets leave the AS here, or have arrived."""
        route = self.chosen.get(a)
        return route is not None and (route.source == "self" or self.network.is_external(a, str(route.source)))

    def _links(self) -> List[Wire]:
        """The links, with an arrow where packets take them."""
        found, arrows = [], self._arrows()
        for key, link in sorted(self.network.links.items(), key=lambda each: [by_address(a) for a in ends(each[0])]):
            one, other = ends(key)
            if self.view.has(one, other):
                label = str(link.metric) if link.is_up else "%d, failed" % link.metric
                taken = {way: arrows[way] for way in ((one, other), (other, one)) if way in arrows}
                found.append(Wire(one, other, True, LINK, label, link.is_up, taken))
        return found

    def _arrows(self) -> Dict[Direction, str]:
        """The color of each way from a router to a first hop: towards the next hop of its route, and of the packet
        that is followed."""
        found = {(a, words[-1]): FORWARDS for a, words in self.costs.items()}
        routers = self.trace.routers if self.trace else []
        return {**found, **dict.fromkeys(zip(routers, routers[1:]), WAY)}

    def _sessions(self) -> List[Wire]:
        found, ups, sessions = [], self.known.ups, self.network.sessions()
        ups.update(self.run.sessions_up([each for each in sessions if each not in ups]))
        waiting = _waiting(self.run, self.view, self.known, sessions)
        for one, other in sessions:
            if self.view.has(one, other):
                ways, is_up = ((one, other), (other, one)), ups[one, other]
                color = EXTERNAL if self.network.is_external(one, other) else INTERNAL
                found.append(Wire(one, other, False, color, "", is_up,
                                  {way: color if is_up else DOWN for way in ways if way in self.network.clients},
                                  {way: waiting[way] for way in ways if way in waiting},
                                  {way: self.delivered[way] for way in ways if way in self.delivered}))
        return found

    def _titles(self) -> List[str]:
        view, titles = self.view, []
        if view.prefix is not None:
            titles.append("Routes to %s, and where each router forwards" % view.prefix)
        if self.way and self.trace:
            end = {"reached": "reached", "noroute": "no route", "loop": "a loop"}[self.trace.end]
            start, place = (readable(self.names.shown(where)) for where in (self.way[0], self.trace.place))
            titles.append("A packet from %s to %s: %s at %s" % (start, self.way[1], end, place))
        return titles + view.notes


def look(run: Run, view: View, way: Optional[Direction], delivered: Delivered, known: Known) -> Scene:
    """What the view shows of the run now, with the way of one packet."""
    return Look(run, view, way, delivered, known).scene()


def shortened(path: str) -> str:
    """A path for a picture: a long one with its first ASes and its last."""
    if len(path) <= LONGEST_PATH:
        return path
    last = path.replace("_", ",").rsplit(",", 1)[1]
    return "%s,..,%s" % (path[:LONGEST_PATH - len(last) - 4].rsplit(",", 1)[0], last)


def carried(attributes: Attributes) -> List[str]:
    """The communities of a route for a picture, as a line where there are some; of many the first."""
    first = attributes.communities[:MOST_COMMUNITIES]
    left = len(attributes.communities) - len(first)
    return ["comms " + communities.told(first) + (" and %d more" % left if left else "")] if first else []


def _waiting(run: Run, view: View, known: Known, sessions: List[Direction]) -> Dict[Direction, int]:
    """How many messages wait on each way where some do."""
    if run.ask(["quiet"]) == [["yes"]]:
        known.waiting, known.queues = {}, set()
        return {}
    ways = [way for one, other in sessions if view.has(one, other)
            for way in ((one, other), (other, one)) if known.queues is None or way in known.queues]
    known.waiting.update(zip(ways, (len(reply) - 1 for reply in run.ask("queue %s %s" % way for way in ways))))
    known.queues = set()
    return {way: count for way, count in known.waiting.items() if count}


def _told(run: Run, prefix: str, view: View) -> Dict[str, List[Attributes]]:
    """The routes that each virtual peer was told for the prefix."""
    asked = [(v, r) for v in run.network.virtuals() if view.has(v)
             for r in sorted(run.network.peers.get(v, ()), key=by_address)]
    found: Dict[str, List[Attributes]] = {}
    for (v, _), reply in zip(asked, run.ask("in %s %s" % way for way in asked)):
        received = routes(reply)
        if prefix in received:
            found.setdefault(v, []).append(received[prefix].attributes)
    return found


def _trace(run: Run, way: Optional[Direction]) -> Optional[Trace]:
    return trace(run.ask(["trace %s %s" % way])[0]) if way and run.network.is_router(way[0]) else None
