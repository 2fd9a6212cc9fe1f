"""The network that C-BGP scripts build: nodes, links, domains, and BGP routers with their peers."""
from __future__ import annotations

from dataclasses import dataclass, field
from typing import Dict, List, Optional, Set, Tuple

from ...network.configuration import Pair, pair
from ...program.language import address, contains
from ..common.omissions import LeftOut
from ..common.policy import Prefix
from .filters import Rule
from .lines import Line


@dataclass
class Static:
    """A static route of a node: where it leads, and its metric."""
    where: Prefix
    way: str
    metric: int
    line: Line


@dataclass
class Node:
    """A node. `asn` is nothing while no BGP runs on it; `reaches` are prefixes to which it computes ways by itself."""
    address: str
    line: Line
    name: str = ""
    domain: Optional[int] = None
    asn: Optional[int] = None
    cluster: str = ""
    statics: List[Static] = field(default_factory=list)
    reaches: List[Prefix] = field(default_factory=list)
    networks: Dict[str, Line] = field(default_factory=dict)


@dataclass
class Link:
    """A link. Each way has a weight of its own; `delay` is the third word of `net add link`, which early versions take
    for the weight."""
    one: str
    other: str
    line: Line
    delay: Optional[int] = None
    weights: Dict[Tuple[str, str], Tuple[int, Line]] = field(default_factory=dict)
    is_up: bool = True


@dataclass
class Peer:
    """What a router says of a peer. `flags` are virtual, rr-client and next-hop-self; `fed` are the words of `feed`
    for each prefix that was received by hand."""
    asn: int
    line: Line
    is_up: bool = False
    flags: Dict[str, Line] = field(default_factory=dict)
    filters: Dict[str, List[Rule]] = field(default_factory=lambda: {"in": [], "out": []})
    fed: Dict[str, str] = field(default_factory=dict)


@dataclass
class Domain:
    """An IGP domain. `computed` is when its ways were last computed, `stale` what was changed since then, and
    `unscanned` the computation of which BGP has not heard."""
    number: int
    line: Line
    computed: Optional[Line] = None
    stale: Optional[Line] = None
    unscanned: Optional[Line] = None


class Network:
    """All of it, with what is left out."""

    def __init__(self, left: LeftOut) -> None:
        self.left = left
        self.nodes: Dict[str, Node] = {}
        self.links: Dict[Pair, Link] = {}
        self.around: Dict[str, Set[str]] = {}
        self.domains: Dict[int, Domain] = {}
        self.peers: Dict[Tuple[str, str], Peer] = {}
        self.maps: Dict[str, List[Rule]] = {}
        # Preference of a route to which nothing gives one, and whether MED is compared over all neighbours.
        self.preference = 0
        self.is_med_always = False
        self.has_run = False

    def tell(self, line: Line, text: str) -> None:
        """Tells what is not taken over."""
        self.left.tell(line.place, text)

    def note(self, line: Line, text: str) -> None:
        """Tells what is taken over and may surprise."""
        self.left.note(line.place, text)

    def count(self, line: Line, kind: str) -> None:
        """Counts a line that decides no route."""
        self.left.count(kind, line.place)

    def changed(self, ends: Tuple[str, ...], line: Line) -> None:
        """Notes that what the domain of these nodes computes is of before; BGP does not hear of a link between two."""
        domains = [self.domains.get(-1 if self.nodes[each].domain is None else self.nodes[each].domain or 0)
                   for each in ends]
        for domain in domains:
            if domain is not None and domains == [domain] * len(domains):
                domain.stale = line if domain.computed is not None else None
            elif domain is not None and self.has_run:
                domain.unscanned = line

    def routers(self) -> Dict[str, Node]:
        """The nodes on which BGP runs."""
        return {where: node for where, node in self.nodes.items() if node.asn is not None}

    def add_link(self, link: Link) -> None:
        """A new link, between two that have none."""
        self.links[pair(link.one, link.other)] = link
        self.around.setdefault(link.one, set()).add(link.other)
        self.around.setdefault(link.other, set()).add(link.one)

    def peers_of(self) -> Dict[str, List[Tuple[str, Peer]]]:
        """The peers of each router."""
        found: Dict[str, List[Tuple[str, Peer]]] = {}
        for (one, other), peer in self.peers.items():
            found.setdefault(one, []).append((other, peer))
        return found

    def said_of(self) -> Dict[str, List[Peer]]:
        """What is said of each peer by those that have it."""
        found: Dict[str, List[Peer]] = {}
        for (_, other), peer in self.peers.items():
            found.setdefault(other, []).append(peer)
        return found

    def route_to(self, one: str, other: str) -> Optional[Static]:
        """A node's static route to another, the most exact one."""
        where = (address(other) or 0, 32)
        found = [each for each in self.nodes[one].statics if contains(each.where, where)]
        return max(found, key=lambda each: each.where[1]) if found else None

    def knows(self, one: str, other: str) -> bool:
        """Whether a node has a route to another: of its domain, or a static one."""
        here, there = self.nodes[one], self.nodes.get(other)
        if there is not None and here.domain is not None and here.domain == there.domain:
            return True
        where = (address(other) or 0, 32)
        return any(contains(each, where) for each in here.reaches) or self.route_to(one, other) is not None

    def link(self, one: str, other: str) -> Optional[Link]:
        """The link between two."""
        return self.links.get(pair(one, other))
