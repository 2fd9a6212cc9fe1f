"""The script that C-BGP's network becomes: its routers, links, sessions and policies in the words of the command
language."""
from __future__ import annotations

from typing import Dict, List, Optional, Set, Tuple

from ...network.configuration import Link, Network, Node as Made, Pair, pair
from ...program.language import address, escaped
from ...program.mistakes import Mistake
from ...program.names import TOO_LONG, fits
from ..common.network_edits import Feeds
from ..common.policy import MOST_RULES
from ..common.regions import Place, World
from . import network
from .filters import Rule
from .lines import Line
from .network import Node, Peer
from .rules import PREFERENCE, Converter

METRICS = 65535
MOST_NODES, MOST_LINKS, MOST_SESSIONS = 4096, 16384, 256


class Picture:
    """C-BGP's network as it is now, in the words of the command language. What cannot be said is told."""

    def __init__(self, source: network.Network) -> None:
        self.source = source
        self.made = Network()
        self.feeds: Feeds = {}
        # The ends of each session, the one that says it first, and its line.
        self.sessions: Dict[Pair, Line] = {}
        self.said = source.said_of()
        self._nodes()
        self._links()
        self._sessions()
        self._check_sizes()
        peers = source.peers_of()
        for where in self.made.routers():
            self._settings(where, self.source.nodes[where], peers.get(where, []))
        self._policies()

    # Nodes

    def _nodes(self) -> None:
        source, routers = self.source, self.source.routers()
        for (one, other), peer in source.peers.items():
            if other not in routers and "virtual" in peer.flags and source.nodes[one].asn != peer.asn:
                known = self.made.nodes.setdefault(other, Made(peer.asn, True))
                if known.asn != peer.asn:
                    raise peer.line.mistake("%s is a virtual peer in AS %d before" % (other, known.asn))
        for where, node in source.nodes.items():
            asn = node.asn or self._asn_of(node)
            if where in self.made.nodes:
                pass
            elif asn is None:
                source.tell(node.line, "%s: BGP does not run there, and neither its domain nor its links show an AS; "
                                       "it is left out, and its links" % where)
            else:
                self.made.nodes[where] = Made(asn, False)
            if where in self.made.nodes and node.name:
                self._name(where, node)

    def _name(self, where: str, node: Node) -> None:
        """The name of a node, with `_` for spaces; one that others have, too, is told."""
        name = "_".join(escaped(node.name).split())
        if not fits(name):
            self.source.note(node.line, TOO_LONG % name[:60])
            return
        others = [each for each, known in self.made.names.of.items() if known == name]
        if others:
            self.source.note(node.line, "the name %s is that of %s, too: tools want the address" % (name, others[0]))
        if address(name) is None and name:
            self.made.names.of[where] = name

    def _asn_of(self, node: Node) -> Optional[int]:
        """The AS of a node without BGP: that in which it is a peer, else of its domain, else of the nodes that it is
        linked to."""
        source = self.source
        said = {peer.asn for peer in self.said.get(node.address, [])}
        if said:
            return min(said)
        others = [each for each in source.nodes.values() if each.domain is not None and each.domain == node.domain]
        around = [source.nodes[each] for each in source.around.get(node.address, ())]
        for found in ({each.asn for each in group} - {None} for group in (others, around)):
            if len(found) == 1:
                return found.pop()
        return None

    # Links

    def _links(self) -> None:
        for link in self.source.links.values():
            one, other = link.one, link.other
            nodes = [self.made.nodes.get(each) for each in (one, other)]
            if nodes[0] is None or nodes[1] is None:
                continue
            if nodes[0].is_virtual and nodes[1].is_virtual or nodes[0].asn == nodes[1].asn and (
                    nodes[0].is_virtual or nodes[1].is_virtual):
                self.source.tell(link.line, "%s: it is of a virtual peer, and leads to another one or into the peer's "
                                            "own AS; it is left out" % link.line.text)
                continue
            is_inside = nodes[0].asn == nodes[1].asn
            metric = self._weight(link) if is_inside else self._border_metric(link)
            self.made.links[pair(one, other)] = Link(self._within(metric, link.line), link.is_up)

    def _within(self, metric: int, line: Line) -> int:
        """The metric, or the nearest one that there is."""
        if metric > METRICS:
            self.source.tell(line, "%s: a cost of %d; here it is at most %d" % (line.text, metric, METRICS))
        return min(metric, METRICS)

    def _weight(self, link: network.Link) -> int:
        """The cost of a link inside an AS."""
        source, ways = self.source, ((link.one, link.other), (link.other, link.one))
        here, there = (link.weights.get(way, (link.delay, link.line))[0] for way in ways)
        line = next((link.weights[way][1] for way in ways if way in link.weights), link.line)
        self._check_domains(link)
        if here is None and there is None:
            source.tell(link.line, "%s: it has no `igp-weight`, and C-BGP's own one differs with its version; here its "
                                   "cost is 1" % link.line.text)
            return 1
        if here != there:
            said = ("its other way has none; here the cost is that of both ways" if here is None or there is None else
                    "its ways have the weights %d and %d; here the lower one is the cost of both" % (here, there))
            source.tell(line, "%s: %s" % (line.text, said))
        cost = min(each for each in (here, there) if each is not None)
        if cost == 0:
            source.tell(line, "%s: a link inside an AS has a cost of 1 at least here" % line.text)
        return max(cost, 1)

    def _check_domains(self, link: network.Link) -> None:
        here, there = (self.source.nodes[each].domain for each in (link.one, link.other))
        if here != there:
            self.source.tell(link.line, "%s: its ends are in one AS, and not in one domain; C-BGP computes no way over "
                                        "it, and here it counts" % link.line.text)

    def _border_metric(self, link: network.Link) -> int:
        """The cost of a link between two ASes: that of the static routes over it."""
        source = self.source
        found: List[int] = []
        for one, other in ((link.one, link.other), (link.other, link.one)):
            static = source.route_to(one, other) if one in source.nodes else None
            found += [static.metric] if static is not None and self.made.is_router(one) else []
        weights = [weight for weight, _ in link.weights.values()]
        domains = [source.nodes[each].domain for each in (link.one, link.other)]
        if domains[0] is not None and domains[0] == domains[1]:
            source.tell(link.line, "%s: its ends are in one domain, and in two ASes; C-BGP computes ways over it, and "
                                   "here costs are counted inside an AS" % link.line.text)
        if len(set(found)) > 1:
            source.tell(link.line, "%s: the static routes over it have the metrics %d and %d; here the lower one is "
                                   "its cost" % (link.line.text, found[0], found[1]))
        return max(min(found or weights, default=1), 1)

    # Sessions

    def _sessions(self) -> None:
        for (one, other), peer in self.source.peers.items():
            if pair(one, other) in self.sessions:
                self._check_as(other, peer)
            elif self._is_session(one, other, peer):
                self.sessions[pair(one, other)] = peer.line
                back = self.source.peers.get((other, one))
                is_up = peer.is_up and (self.made.nodes[other].is_virtual or back is not None and back.is_up)
                self.made.enabled[pair(one, other)] = is_up
                for each, there in ((one, other), (other, one)):
                    self.made.peers.setdefault(each, set()).add(there)
                link = self.made.links.get(pair(one, other))
                if is_up and link is not None and link.is_up:
                    self.feeds.update({(other, one, where): words for where, words in peer.fed.items()})

    def _is_session(self, one: str, other: str, peer: Peer) -> bool:
        """Whether a session comes of it; told where not."""
        source, made = self.source, self.made
        line, is_external = peer.line, source.nodes[one].asn != peer.asn
        if "virtual" in peer.flags and not is_external:
            source.tell(peer.flags["virtual"], "%s is a virtual peer of AS %d in AS %d itself; here one is in another "
                                               "AS, and the session is left out" % (other, peer.asn, peer.asn))
            return False
        if not made.nodes.get(other) or not made.nodes[other].is_virtual and source.nodes[other].asn is None:
            source.note(line, "%s: BGP runs on no such node, and it is no virtual peer; the session never comes up, "
                              "and is left out" % line.text)
            return False
        if not made.nodes[other].is_virtual and "virtual" in peer.flags:
            source.tell(peer.flags["virtual"], "%s is a router of the script; it is none that is fed" % other)
        self._check_as(other, peer)
        if made.is_external(one, other):
            return self._is_linked(one, other, peer)
        return self._has_both(one, other, peer)

    def _check_as(self, other: str, peer: Peer) -> None:
        """Tells a peer that is in another AS than its router says."""
        asn = self.made.nodes[other].asn
        if asn != peer.asn:
            self.source.tell(peer.line, "%s: %s is in AS %d, which counts here" % (peer.line.text, other, asn))

    def _has_both(self, one: str, other: str, peer: Peer) -> bool:
        if self.made.nodes[other].is_virtual or (other, one) in self.source.peers:
            return True
        self.source.note(peer.line, "%s: %s has no such peer; the session never comes up, and is left out" % (
            peer.line.text, other))
        return False

    def _is_linked(self, one: str, other: str, peer: Peer) -> bool:
        """Whether an external session has a link; a virtual peer gets one."""
        if pair(one, other) in self.made.links:
            return self._has_both(one, other, peer)
        if not self.made.nodes[other].is_virtual:
            self.source.tell(peer.line, "%s: no link leads to it; here an external neighbour is at the other end of "
                                        "one, and the session is left out" % peer.line.text)
            return False
        self.source.tell(peer.line, "%s: no link leads to it; here it gets one, of cost 1" % peer.line.text)
        self.made.links[pair(one, other)] = Link(1)
        return True

    def _check_sizes(self) -> None:
        made = self.made
        for count, most, what in ((len(made.nodes), MOST_NODES, "nodes"), (len(made.links), MOST_LINKS, "links"),
                                  (max(map(len, made.peers.values()), default=0), MOST_SESSIONS,
                                   "sessions at one of them")):
            if count > most:
                raise Mistake("the network has {:,} {}, and one has at most {:,}".format(count, what, most))

    # Settings

    def _settings(self, where: str, node: Node, said: List[Tuple[str, Peer]]) -> None:
        source, made = self.source, self.made
        if node.asn is None:
            return
        made.clusters.update({where: node.cluster} if node.cluster else {})
        made.med_always.update([where] if source.is_med_always else [])
        made.origins[where] = set(node.networks)
        peers = [(other, peer) for other, peer in said if pair(where, other) in self.sessions]
        outside = [(other, peer) for other, peer in peers if made.is_external(where, other)]
        inside = [(other, peer) for other, peer in peers if not made.is_external(where, other)]
        for other, peer in inside:
            made.clients.update([(where, other)] if "rr-client" in peer.flags else [])
            made.selves.update([(where, other)] if "next-hop-self" in peer.flags else [])
        for other, peer in outside:
            if "rr-client" in peer.flags:
                source.note(peer.flags["rr-client"], "%s is in another AS, and no client" % other)
        self._selves(where, outside, inside)

    def _selves(self, where: str, outside: List[Tuple[str, Peer]], inside: List[Tuple[str, Peer]]) -> None:
        """`next-hop-self` at an external peer is about what comes from it, and here about all that is told inside."""
        marked = [(other, peer) for other, peer in outside if "next-hop-self" in peer.flags]
        if len(marked) == len(outside):
            self.made.selves.update((where, other) for other, _ in inside if marked)
            return
        for other, peer in marked:
            self.source.tell(peer.flags["next-hop-self"], (
                "next-hop-self for what comes from %s, and not for other external peers of %s: here it is for all that "
                "is told to an internal peer. Write `self %s PEER on` where that is meant" % (other, where, where)))

    # Policies

    def world(self) -> World:
        """What is known of all ASes, for rules about paths."""
        world = World()
        for both in self.made.enabled:
            one, other = (self.made.nodes[each].asn for each in both)
            if one != other:
                world.neighbours.setdefault(one, set()).add(other)
                world.neighbours.setdefault(other, set()).add(one)
        world.fed.update(node.asn for node in self.made.nodes.values() if node.is_virtual)
        world.prepending.update(self.source.nodes[one].asn or 0 for (one, _), peer in self.source.peers.items()
                                for rules in peer.filters.values() if _prepends(rules))
        return world

    def _policies(self) -> None:
        world = self.world()
        for (one, other), peer in self.source.peers.items():
            for way, found in peer.filters.items():
                if found and pair(one, other) in self.sessions:
                    place = Place(self.made.nodes[one].asn, self.made.nodes[other].asn, way)
                    made = Converter(place, world, self.source.maps, self.source.preference, self.source.tell,
                                     self.source.count).rules(found)
                    self._check_rules(one, other, way, found[0].line, len(made))
                    self.made.rules[one, other, way] = ["%s %s" % each for each in made]

    def _check_rules(self, one: str, other: str, way: str, line: Line, count: int) -> None:
        if count > MOST_RULES:
            raise Mistake("the filter of %s towards %s on the way %s takes %d rules, and a policy has at most %d" % (
                one, other, way, count, MOST_RULES), line.file, line.number)

    def sets_preference(self) -> bool:
        """Whether some rule sets a preference."""
        return any(" pref=" in rule for rules in self.made.rules.values() for rule in rules)

    def asns_above(self) -> Set[int]:
        """The ASes in which a rule sets a preference above that of own routes."""
        return {self.made.nodes[one].asn for (one, _, _), rules in self.made.rules.items() for rule in rules
                for word in rule.split(" ") if word.startswith("pref=") and int(word[5:]) > PREFERENCE}


def _prepends(rules: List[Rule]) -> bool:
    return any(deed.kind == "prepend" for rule in rules for deed in rule.deeds)
