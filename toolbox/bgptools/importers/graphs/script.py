"""The script that a graph becomes: a router a node, all in one AS, with sessions as a mesh or by reflectors."""
from __future__ import annotations

from collections import Counter
from dataclasses import dataclass, field
from typing import Dict, List, Optional, Tuple

from ...network.graph_search import least_costs
from ...program.language import address, escaped, number, prefix, show_address
from ...program.mistakes import Mistake
from ...program.names import TOO_LONG, fits, mark
from .costs import COSTS, Costs
from .graph import Graph, Node

MOST_NODES, MOST_LINKS, MOST_SESSIONS = 4096, 16384, 256
# The first addresses of routers and of external neighbours.
ROUTERS, OUTSIDE = 10 << 24, (172 << 24) + (16 << 16)
LABELS = ("label", "name", "Label", "Name")
# Attributes that say nothing of routes: what they are counted as.
PLACES = ("Country", "Longitude", "Latitude", "lon", "lat", "longitude", "latitude", "x", "y", "geocode_country",
          "geocode_id", "geocode_append", "geocode_name", "population", "doublenodes")
ASES = ("asn", "ASN", "as", "AS")
KINDS = ("type", "Internal", "hyperedge", "Network", "id", "key", "Service")
SPEEDS = ("LinkSpeed", "LinkSpeedUnits", "LinkSpeedRaw")
# What `Internal` of the Topology Zoo may be.
INTERNAL = ("0", "1", "0.0", "1.0", "")
LINKS = ("LinkType", "LinkLabel", "LinkNote", "LinkStatus")


@dataclass
class Wanted:
    """What the words of the call ask for. `reflectors` is a number or names with commas; `externals` are pairs of a
    name and an AS, `origins` of a name and a prefix."""
    asn: int
    cost: Optional[str] = None
    is_by_speed: bool = False
    reflectors: Optional[str] = None
    externals: List[List[str]] = field(default_factory=list)
    origins: List[List[str]] = field(default_factory=list)


class Writer:
    """Makes the script, and tells what it cannot say."""

    def __init__(self, graph: Graph, wanted: Wanted) -> None:
        self.graph, self.wanted, self.left = graph, wanted, graph.left
        self._check_size(len(graph.nodes) + len(wanted.externals), MOST_NODES, "nodes")
        self.addresses = {key: show_address(ROUTERS + at) for at, key in enumerate(graph.nodes, 1)}
        self.names = {key: self._name(key) for key in graph.nodes}
        self.externals = [(self._key(name, "--external"), self._other_as(asn)) for name, asn in wanted.externals]
        self.origins = [(self._key(name, "--origin"), _prefix(where)) for name, where in wanted.origins]
        self._tell_names()
        self._tell_attributes()
        costs = Costs(graph, wanted.cost, wanted.is_by_speed, {key: self._shown(key) for key in graph.nodes})
        costs.tell_one_way()
        self.links = costs.links
        self._check_size(len(self.links) + len(wanted.externals), MOST_LINKS, "links")
        self.parts = graph.parts(self.links)
        self._tell_parts()

    def _check_size(self, count: int, most: int, what: str) -> None:
        if count > most:
            raise Mistake("it has {:,} {}, and a network has at most {:,}".format(count, what, most), self.graph.file)

    # Names

    def _name(self, key: str) -> str:
        """The label of a node, with `_` for spaces; empty where it has none."""
        attributes = self.graph.nodes[key].attributes
        label = next((attributes[each] for each in LABELS if attributes.get(each, "").strip()), "")
        return self._short(key, "_".join(escaped(label).split()))

    def _short(self, key: str, name: str) -> str:
        """A name; one that no line has room for is left out, which is told."""
        if fits(name):
            return name
        self.left.note(self.graph.place(self.graph.nodes[key].line), TOO_LONG % name[:60])
        return ""

    def _tell_names(self) -> None:
        """Nodes without a name get their id; names that are there twice are told."""
        nodes, nameless = self.graph.nodes, [key for key in self.names if not self.names[key]]
        self.names.update({key: self._short(key, "_".join(escaped(key).split())) or self.addresses[key]
                           for key in nameless})
        if nameless:
            self.left.note(self.graph.place(nodes[nameless[0]].line), "nodes without a name: %d; their ids stand" % (
                len(nameless)))
        self.count_of_names = Counter(self.names.values())
        first: Dict[str, str] = {}
        for key, name in self.names.items():
            before = first.setdefault(name, key)
            if before != key:
                self.left.note(self.graph.place(nodes[key].line), (
                    "the name %s is that of line %d, too: tools want the addresses of the two, %s and %s" % (
                        name, nodes[before].line, self.addresses[before], self.addresses[key])))
            elif address(name) is not None:
                self.left.note(self.graph.place(nodes[key].line), "the name %s is an address, and is left out" % name)

    def _shown(self, key: str) -> str:
        """A node as it is told: its name, with its address where others have the name, too."""
        name = self.names[key]
        return name if self.count_of_names[name] == 1 else "%s (%s)" % (name, self.addresses[key])

    def _key(self, name: str, word: str) -> str:
        """The node that a name, an id or an address stands for; raises Mistake."""
        joined = "_".join(name.split())
        found = [key for key in self.names if name in (self.names[key], self.addresses[key])
                 or joined == self.names[key]] or [key for key in self.names if key == name]
        if len(found) != 1:
            several = "there are several; give the address: " + ", ".join(self.addresses[key] for key in found)
            raise Mistake("%s %s: %s" % (word, name, several if found else "there is no such node"), self.graph.file)
        return found[0]

    # Attributes

    def _tell_attributes(self) -> None:
        """Counts the attributes that are known, tells those that are not, and nodes that are no routers of the AS."""
        for node in self.graph.nodes.values():
            self._tell_kind(node)
        self._tell_ases()
        found: Dict[str, List[int]] = {}
        all_of = [(node.line, node.attributes) for node in self.graph.nodes.values()]
        for line, attributes in all_of + [(edge.line, edge.attributes) for edge in self.graph.edges]:
            for name in attributes:
                found.setdefault(name, []).append(line)
        for name, lines in found.items():
            self._tell_attribute(name, lines)
        self.left.counts.update({"attributes of the graph": self.graph.count_of_own} if self.graph.count_of_own else {})

    def _tell_ases(self) -> None:
        """Tells where nodes are of several ASes."""
        for name in ASES:
            said = {node.attributes[name]: node.line for node in reversed(list(self.graph.nodes.values()))
                    if name in node.attributes}
            if len(said) > 1:
                self.left.tell(self.graph.place(sorted(said.values())[1]), (
                    "`%s` of the nodes has %d values; here all are in AS %d" % (name, len(said), self.wanted.asn)))

    def _tell_kind(self, node: Node) -> None:
        """Tells a node that is no router of the AS."""
        at, shown = self.graph.place(node.line), self._shown(node.key)
        if node.attributes.get("hyperedge", "0") not in ("0", ""):
            self.left.tell(at, "node %s stands for a hyperedge, which joins more than two; here it is a router" % shown)
        if node.attributes.get("Internal", "1") not in INTERNAL:
            self.left.tell(at, "node %s has `Internal %s`, and 0 or 1 is expected; here it is a router of the AS" % (
                shown, node.attributes["Internal"][:60]))
        if node.attributes.get("Internal", "1") in ("0", "0.0"):
            self.left.tell(at, "node %s is outside of the network (Internal 0); here it is a router of the AS" % shown)

    def _tell_attribute(self, name: str, lines: List[int]) -> None:
        tables = ((PLACES, "places"), (KINDS, "kinds"), (SPEEDS, "speeds"), (LINKS, "words of links"))
        kind = next((kind for names, kind in tables if name in names), None)
        if name in LABELS + ASES or name == self.wanted.cost or name.lower() in COSTS or (
                self.wanted.is_by_speed and name in SPEEDS):
            return
        if kind is None:
            self.left.note(self.graph.place(lines[0]), "the attribute `%s` is not known, and not used: %d" % (
                escaped(name)[:60], len(lines)))
        else:
            self.left.counts[kind] += len(lines)

    def _tell_parts(self) -> None:
        for part in self.parts[1:]:
            self.left.note(self.graph.place(self.graph.nodes[part[0]].line), (
                "no link joins node %s%s with the %d others: no session between them comes up" % (
                    self._shown(part[0]), " and %d more" % (len(part) - 1) if len(part) > 1 else "",
                    len(self.graph.nodes) - len(part))))

    # Sessions

    def sessions(self) -> Tuple[List[Tuple[str, str]], List[str]]:
        """The sessions inside the AS, and the reflectors, which are the first of both ends towards a client."""
        keys = list(self.graph.nodes)
        if self.wanted.reflectors is None:
            self._check_sessions(len(keys) - 1, "--reflectors N makes fewer")
            return [(one, other) for at, one in enumerate(keys) for other in keys[at + 1:]], []
        chosen = self._reflectors(self.wanted.reflectors)
        mesh = [(one, other) for at, one in enumerate(chosen) for other in chosen[at + 1:]]
        self._check_sessions(len(chosen) - 1, "fewer reflectors make fewer")
        return mesh + self._clients(chosen, [key for key in keys if key not in chosen]), chosen

    def _check_sessions(self, count: int, advice: str) -> None:
        outside = max(Counter(key for key, _ in self.externals).values(), default=0)
        if count + outside > MOST_SESSIONS:
            raise Mistake("a router would have %d sessions, and one has at most %d: %s" % (
                count + outside, MOST_SESSIONS, advice), self.graph.file)

    def _reflectors(self, said: str) -> List[str]:
        """Those that are named, or so many by the number of their links, and one at least in each part that has more
        than one node; raises Mistake."""
        if number(said) is None:
            return list(dict.fromkeys(self._key(name, "--reflectors") for name in said.split(",")))
        count = int(said)
        if not 1 <= count <= len(self.graph.nodes):
            raise Mistake("--reflectors %d: 1 to %d are expected" % (count, len(self.graph.nodes)), self.graph.file)
        degrees = Counter(key for both in self.links for key in both)
        ordered = sorted(self.graph.nodes, key=lambda key: -degrees[key])
        chosen = ordered[:count]
        for part in self.parts:
            if len(part) > 1 and not set(part) & set(chosen):
                chosen.append(max(part, key=lambda key: degrees[key]))
                self.left.note(self.graph.place(self.graph.nodes[chosen[-1]].line), (
                    "node %s is a reflector, too: no other one is in its part of the graph" % self._shown(chosen[-1])))
        return chosen

    def _clients(self, chosen: List[str], others: List[str]) -> List[Tuple[str, str]]:
        """Each other router is a client of the two nearest reflectors that have room for it; raises Mistake where none
        has."""
        ways = {key: least_costs(self.links, key) for key in chosen}
        outside = Counter(key for key, _ in self.externals)
        room = {key: MOST_SESSIONS - (len(chosen) - 1) - outside[key] for key in chosen}
        found: List[Tuple[str, str]] = []
        for key in others:
            known = [each for each in chosen if key in ways[each]]
            near = sorted((each for each in known if room[each] > 0), key=lambda each: ways[each][key])[:2]
            if known and not near:
                raise Mistake("no reflector has room for %s: each has %d sessions at most; --reflectors with a greater "
                              "number spreads them" % (self._shown(key), MOST_SESSIONS), self.graph.file)
            room.update({each: room[each] - 1 for each in near})
            found += [(each, key) for each in chosen if each in near]
        return found

    # The script

    def lines(self) -> List[str]:
        """The script."""
        where = self.addresses
        lines: List[str] = []
        for key in self.graph.nodes:
            lines.append("router %s %d" % (where[key], self.wanted.asn))
            lines += [mark(where[key], self.names[key])] if address(self.names[key]) is None else []
        lines += ["link %s %s %d" % (where[one], where[other], cost) for (one, other), cost in self.links.items()]
        sessions, chosen = self.sessions()
        lines += ["join %s %s" % (where[one], where[other]) for one, other in sessions]
        lines += ["client %s %s on" % (where[one], where[other]) for one, other in sessions
                  if one in chosen and other not in chosen]
        for at, (key, asn) in enumerate(self.externals, 1):
            peer = show_address(OUTSIDE + at)
            lines += ["virtual %s %d" % (peer, asn), "link %s %s 1" % (where[key], peer),
                      "join %s %s" % (where[key], peer)]
        return lines + list(dict.fromkeys("origin %s %s" % (where[key], found) for key, found in self.origins))

    def _other_as(self, text: str) -> int:
        """The AS of an external neighbour; raises Mistake."""
        asn = number(text, 1)
        if asn is None or asn == self.wanted.asn:
            raise Mistake("--external .. %s: the number of another AS is expected" % text)
        return asn


def _prefix(text: str) -> str:
    if prefix(text) is None:
        raise Mistake("--origin .. %s: a prefix as 10.0.0.0/8 is expected, no bit set behind its length" % text)
    return text
