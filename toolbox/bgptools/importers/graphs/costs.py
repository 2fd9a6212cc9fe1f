"""The costs of a graph's links: of an attribute, of speeds, or 1; and one link for each two nodes."""
from __future__ import annotations

import math
from typing import Callable, Dict, List, Optional

from ...network.graph_search import Pair
from ...program.language import escaped
from ...program.mistakes import Mistake
from .graph import Edge, Graph

MOST = 65535
# The speed of which the cost is 1, in bits a second.
FASTEST = 100e9
UNITS = {"": 1.0, "K": 1e3, "M": 1e6, "G": 1e9, "T": 1e12}
# Attributes whose names say that they are costs.
COSTS = ("cost", "metric", "weight", "igp-weight", "igp_weight", "igp", "ospf")
Cost = Callable[[Edge], Optional[float]]


def positive(text: str) -> Optional[float]:
    """The number above 0 that a text spells."""
    try:
        value = float(text)
    except ValueError:
        return None
    return value if 0 < value < math.inf and "_" not in text else None


def _speed_of(edge: Edge) -> Optional[float]:
    """The cost of a link by its speed, LinkSpeedRaw or LinkSpeed with its unit."""
    raw = positive(edge.attributes.get("LinkSpeedRaw", ""))
    unit = UNITS.get(edge.attributes.get("LinkSpeedUnits", "").strip().upper()[:1])
    plain = positive(edge.attributes.get("LinkSpeed", ""))
    speed = raw or (plain * unit if plain is not None and unit is not None else None)
    return None if speed is None or not speed else max(1, FASTEST // speed)


def _cost_by(attribute: str) -> Cost:
    return lambda edge: positive(edge.attributes.get(attribute, ""))


class Costs:
    """The links between each two nodes, each with its cost. What cannot be said is told, nodes by their names."""

    def __init__(self, graph: Graph, attribute: Optional[str], is_by_speed: bool, names: Dict[str, str]) -> None:
        self.graph, self.names = graph, names
        self.said = "speed" if is_by_speed else "`%s`" % attribute
        self.of: Optional[Cost] = _speed_of if is_by_speed else None
        if attribute is not None:
            self.of = _cost_by(attribute)
        self.links: Dict[Pair, int] = {}
        self.edges: Dict[Pair, List[Edge]] = {}
        self.count_of_rounded = 0
        self._check(attribute)
        for edge in graph.edges:
            self._take(edge)
        if self.count_of_rounded:
            graph.left.note(graph.place(0), "%d links have a cost with a fraction, which is rounded" % (
                self.count_of_rounded))

    def _check(self, attribute: Optional[str]) -> None:
        """Raises Mistake where no edge has the attribute; tells those that look like costs and are not used."""
        has = self.graph.attributes_of_edges()
        if attribute is not None and self.graph.edges and attribute not in has:
            raise Mistake("--cost %s: no edge has this attribute; there are %s" % (
                attribute, escaped(", ".join(sorted(has))) or "none"), self.graph.file)
        for name, count in sorted(has.items()):
            if name.lower() in COSTS and self.of is None:
                line = next(edge.line for edge in self.graph.edges if name in edge.attributes)
                self.graph.left.tell(self.graph.place(line), (
                    "`%s` of %d edges: each link has the cost 1; --cost %s takes it" % (name, count, name)))

    def _take(self, edge: Edge) -> None:
        left, at = self.graph.left, self.graph.place(edge.line)
        if edge.source == edge.target:
            left.note(at, "an edge from node %s to itself: no way leads over it, and it is left out" % (
                self.names[edge.source]))
            return
        cost = self._cost(edge)
        key = (edge.source, edge.target) if (edge.target, edge.source) not in self.links else (edge.target, edge.source)
        if key in self.links:
            self._again(edge, key, cost)
        self.links[key] = min(cost, self.links.get(key, cost))
        self.edges.setdefault(key, []).append(edge)

    def _again(self, edge: Edge, key: Pair, cost: int) -> None:
        """Another edge between the same two: another link, or the way back of a directed one."""
        left, at, first = self.graph.left, self.graph.place(edge.line), self.edges[key][0]
        ends = self._ends(edge)
        is_back = edge.is_directed and first.is_directed and (edge.target, edge.source) == (first.source, first.target)
        if not is_back:
            left.tell(at, "another edge between %s and %s (line %d): one link stands for both, of the lower cost, and "
                          "`fail` takes both" % (*ends, first.line))
        elif cost != self.links[key]:
            left.tell(at, "the way from %s to %s has the cost %d, and the way back (line %d) %d; here the lower one is "
                          "that of both" % (*ends, cost, first.line, self.links[key]))

    def _ends(self, edge: Edge) -> Pair:
        return self.names[edge.source], self.names[edge.target]

    def _cost(self, edge: Edge) -> int:
        """The cost of an edge; 1 where it has none."""
        found = self.of(edge) if self.of is not None else 1.0
        left, at = self.graph.left, self.graph.place(edge.line)
        if found is None:
            left.tell(at, "the edge between %s and %s has no %s above 0: its cost is 1" % (
                *self._ends(edge), self.said))
            return 1
        whole = max(1, math.floor(found + 0.5))
        self.count_of_rounded += whole != found
        if whole > MOST:
            left.tell(at, "the edge between %s and %s has a cost of %.0f; here it is at most %d" % (
                *self._ends(edge), found, MOST))
        return min(whole, MOST)

    def tell_one_way(self) -> None:
        """Tells the links that lead one way in the file."""
        lonely = [edges[0] for edges in self.edges.values() if all(edge.is_directed for edge in edges)
                  and len({(edge.source, edge.target) for edge in edges}) == 1]
        if lonely:
            self.graph.left.tell(self.graph.place(lonely[0].line), (
                "edges that lead one way alone: %d; a link leads both ways" % len(lonely)))
