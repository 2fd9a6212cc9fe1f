"""The network that all files make: routers with their names and ASes, links and sessions."""
from __future__ import annotations

from collections import Counter
from dataclasses import dataclass, field
from typing import Dict, FrozenSet, Iterator, List, Optional, Set, Tuple

from ...program.language import address, by_address, contains, number
from ...program.mistakes import Mistake
from .adjacencies import Difference, difference
from .configuration import Address, Config, Interface, Neighbour, short
from .igp import is_loopback

End = Tuple[str, Interface, Address]


@dataclass
class Link:
    """A link of two routers, or of a router and a virtual peer, by the interfaces that make it. `others` are those
    between the same two."""
    one: str
    other: str
    here: Interface
    there: Optional[Interface] = None
    own: Optional[Address] = None
    opposite: Optional[Address] = None
    others: List["Link"] = field(default_factory=list)
    # Why OSPF or IS-IS does not use it, and whether it counts as failed for that.
    difference: Optional[Difference] = None
    is_unused: bool = False

    @property
    def is_down(self) -> bool:
        return self.here.is_down or bool(self.there and self.there.is_down) or self.is_unused

    @property
    def ends(self) -> Set[str]:
        return {self.one, self.other}


class Network:
    """All routers, links and sessions. `peers` has what each end of a session says; a session of routers has two."""

    def __init__(self, configs: List[Config]) -> None:
        self.read = configs
        self.routers: Dict[str, Config] = {}
        self.owners: Dict[str, str] = {}
        self.virtuals: Dict[str, int] = {}
        self.links: Dict["FrozenSet[str]", Link] = {}
        self.peers: Dict[Tuple[str, str], Neighbour] = {}
        self.addresses: Dict[Tuple[str, str], str] = {}
        self.shared: List[List[End]] = []
        self.stopped: Set["FrozenSet[str]"] = set()
        for config in configs:
            self._name(config)
        self._find_owners()
        self._find_links()
        self._give_interior_routers_ases()
        self._find_sessions()
        self._find_differences()
        self.reflectors = {name for (name, _), each in self.peers.items() if each.has("route-reflector-client")}
        self._hostnames = Counter(config.hostname for config in self.routers.values())
        self._peers_of: Dict[str, List[Tuple[str, Neighbour]]] = {}
        for (name, other), each in self.peers.items():
            self._peers_of.setdefault(name, []).append((other, each))

    def is_external(self, name: str, other: str) -> bool:
        """Whether the two are in different ASes."""
        return other in self.virtuals or self.routers[other].asn != self.routers[name].asn

    def asn_of(self, name: str) -> int:
        """The AS of a router or virtual peer."""
        return self.virtuals[name] if name in self.virtuals else self.routers[name].asn or 0

    def called(self, name: str) -> str:
        """A router by its name where the files give one to it alone, else by its address."""
        hostname = self.routers[name].hostname if name in self.routers else ""
        return hostname if hostname and self._hostnames[hostname] == 1 else name

    def peers_of(self, name: str) -> List[Tuple[str, Neighbour]]:
        """Who a router has sessions with, and what it says of each."""
        return self._peers_of.get(name, [])

    # Routers

    def _name(self, config: Config) -> None:
        name = config.own_name()
        if not name:
            wanted = "`bgp router-id A` is" if config.asn else "a line `router bgp N` is"
            raise Mistake(wanted + " expected, or an interface with an address", config.name)
        if name in self.routers:
            name = self._other_name(config, name)
        self.routers[name] = config

    def _other_name(self, config: Config, name: str) -> str:
        """Another address for a router whose router-id is that of another one; raises Mistake where it has none."""
        other = self.routers[name]
        free = [each.own for interface in config.interfaces.values() for each in interface.addresses
                if each.own not in self.routers]
        if not free:
            raise Mistake("the router-id %s is that of %s, too" % (name, other.name), config.name)
        found = max(free, key=by_address)
        is_inside = other.asn == config.asn
        what = "FRR brings no session of the two up" if is_inside else "in FRR the router-ids are compared last"
        config.tell(config.line, "%s: the router-id %s is that of %s, too; this router is `%s` here. %s" % (
            short(config.line.text or "router"), name, other.name, found, what))
        return found

    def _find_owners(self) -> None:
        self.owners = {name: name for name in self.routers}
        for name, config, interface, each in self._addresses():
            if self.owners.setdefault(each.own, name) != name:
                other = self.routers[self.owners[each.own]].name
                config.tell(each.line, "%s: it is an address of %s, too, and sessions with it are taken for "
                            "sessions with "
                            "that one" % (short(each.line.text), other))

    def _addresses(self) -> Iterator[Tuple[str, Config, Interface, Address]]:
        return ((name, config, interface, each) for name, config in self.routers.items()
                for interface in config.interfaces.values() for each in interface.addresses if each.own)

    # Links: two interfaces in one subnet, or each with the other's address

    def _find_links(self) -> None:
        subnets: Dict[object, List[End]] = {}
        for key, end in self._ends():
            subnets.setdefault(key, []).append(end)
        self.shared = [ends for ends in subnets.values() if len({end[0] for end in ends}) > 2]
        for one, others in ((end, ends[at + 1:]) for ends in subnets.values() for at, end in enumerate(ends)):
            self._link_all(one, others)

    def _ends(self) -> Iterator[Tuple[object, End]]:
        """Each end of a link that may be, with what it has in common with the other end."""
        return ((key, (name, interface, each)) for name, config in self.routers.items()
                for interface in config.interfaces.values() if not is_loopback(interface)
                for key, each in _subnets(interface))

    def _link_all(self, one: End, ends: List[End]) -> None:
        for other in (end for end in ends if end[0] != one[0]):
            lower, higher = sorted((one, other), key=lambda end: by_address(end[0]))
            self._link(Link(lower[0], higher[0], lower[1], higher[1], lower[2], higher[2]))

    def _link(self, link: Link) -> None:
        """Keeps a link; of several between two, the one that is up and has the lowest cost stands for all."""
        key = frozenset(link.ends)
        known = self.links.get(key)
        if known is None:
            self.links[key] = link
        elif link.here is known.here and link.there is known.there:
            return
        elif (link.is_down, link.here.cost) < (known.is_down, known.here.cost):
            link.others, known.others = known.others + [known], []
            self.links[key] = link
        else:
            known.others.append(link)

    # The ASes of routers without BGP

    def _give_interior_routers_ases(self) -> None:
        """A router without BGP is of the AS of those that it has links with, directly or by others without BGP."""
        for name in [name for name, config in self.routers.items() if config.asn is None]:
            around = self._around(name)
            if len(around) == 1:
                self.routers[name].asn = around.pop()
            else:
                self.routers[name].tell(self.routers[name].line, "a router without `router bgp`: it has links to %s, "
                                        "so that it is in no AS and is left out" % (
                    "routers of the ASes " + ", ".join(map(str, sorted(around))) if around else "no router with one"))
        for name in [name for name, config in self.routers.items() if config.asn is None]:
            self._leave_out(name)

    def _around(self, name: str) -> Set[int]:
        found: Set[int] = set()
        seen, waiting = {name}, [name]
        while waiting:
            here = waiting.pop()
            for other in {end for key in self.links if here in key for end in key} - seen:
                seen.add(other)
                asn = self.routers[other].asn
                found |= {asn} if asn is not None else set()
                waiting += [other] if asn is None else []
        return found

    def _leave_out(self, name: str) -> None:
        del self.routers[name]
        self.links = {key: link for key, link in self.links.items() if name not in key}
        self.owners = {own: owner for own, owner in self.owners.items() if owner != name}
        self.shared = [ends for ends in ([end for end in ends if end[0] != name] for ends in self.shared)
                       if len({end[0] for end in ends}) > 2]

    # Links whose ends do not become neighbours in OSPF or IS-IS

    def _find_differences(self) -> None:
        """Says which links the interior does not use, since their ends say other things; of several links of two
        routers one that is used stands for all."""
        crowded = [id(end[1]) for ends in self.shared for end in ends]
        for key, link in list(self.links.items()):
            for each in [link, *link.others]:
                if each.own and each.opposite and each.there:
                    each.difference = difference(each.own.hellos, each.opposite.hellos,
                                                 (each.own.own, each.opposite.own), id(each.here) not in crowded)
            used = [each for each in [link, *link.others] if each.difference is None and not each.is_down]
            if link.difference and used and not link.is_down:
                chosen = min(used, key=lambda each: each.here.cost)
                chosen.others = [each for each in [link, *link.others] if each is not chosen]
                self.links[key] = chosen
            elif link.difference and not self.is_external(link.one, link.other):
                link.is_unused = not self.is_kept(link)

    def is_kept(self, link: Link) -> bool:
        """Whether a session, or a static route, uses a link without OSPF and IS-IS."""
        sessions = [each.name for key in ((link.one, link.other), (link.other, link.one))
                    for each in [self.peers.get(key)] if each]
        ways = [static.way for end in link.ends for static in self.routers[end].statics]
        found = [address(each) for each in [*sessions, *ways]]
        subnet = link.own.subnet if link.own else (0, 0)
        return link.here.name in ways or any(contains(subnet, (each, 32)) for each in found if each is not None)

    # Sessions

    def _find_sessions(self) -> None:
        for name, config, each in [(name, config, config.settled(each)) for name, config in self.routers.items()
                                   for each in config.neighbours.values()]:
            where = self._address_of(name, config, each)
            other = self._other_end(name, config, each, where) if where else ""
            if other and (name, other) in self.peers:
                config.tell(each.line, "%s: it is the router %s, with which there is a session already; FRR has "
                            "two, and here "
                            "one stands for both" % (short(each.line.text), other))
            elif other:
                self.peers[name, other], self.addresses[name, other] = each, where
        self._drop_one_sided()

    def _drop_one_sided(self) -> None:
        """Leaves out the sessions of which one end says nothing."""
        for name, other in [(one, there) for one, there in self.peers
                            if there in self.routers and (there, one) not in self.peers]:
            line = self.peers.pop((name, other)).line
            self.routers[name].tell(line, "%s: %s has no neighbor that is %s, so that no session comes up" % (
                short(line.text), self.routers[other].name, name))

    def _address_of(self, name: str, config: Config, each: Neighbour) -> str:
        """The address of a neighbour; that of an interface's neighbour is the one address at its other end."""
        if not each.word("interface"):
            return each.name
        ends = [link for key, link in self.links.items() if name in key
                and each.name in (link.here.name if link.one == name else "", link.there.name if link.there
                                  and link.other == name else "")]
        if len(ends) == 1:
            link = ends[0]
            opposite = link.opposite if link.one == name else link.own
            beyond = link.other if link.one == name else link.one
            return opposite.own if opposite and address(opposite.own) is not None else beyond
        config.tell(each.at("interface"), "%s: which router is at the other end is in no file, since the interface "
                    "shares a subnet with %s; write `join`" % (
            short(each.at("interface").text), "several" if ends else "no other"))
        return ""

    def _other_end(self, name: str, config: Config, each: Neighbour, where: str) -> str:
        """The router or virtual peer that a neighbour is; nothing where it cannot be said."""
        other, own, said = self.owners.get(where, ""), config.asn or 0, short(each.line.text)
        asn = own if each.remote == "internal" else number(each.remote, 1)
        if each.remote == "":
            config.tell(each.line, "%s: it has no remote-as, so that FRR has no session with it" % said)
        elif other == name:
            config.tell(each.line, "%s: it is this router itself" % said)
        elif other:
            return self._router_at(config, each, name, other, asn)
        elif asn is None or asn == own:
            config.tell(each.line, "%s: no file belongs to it, and a virtual peer needs %s; there is no session" % (
                said, "its AS number" if asn is None else "another AS"))
        elif self.virtuals.get(where, asn) != asn:
            config.tell(each.line, "%s: it is of AS %d for another router" % (said, self.virtuals[where]))
        else:
            self._virtual(name, config, each, asn)
            return where
        return ""

    def _router_at(self, config: Config, each: Neighbour, name: str, other: str, asn: Optional[int]) -> str:
        there, own, said = self.routers[other].asn or 0, config.asn or 0, short(each.line.text)
        if str(asn) in self._spoken_for(other, name):
            asn = there
        if there != asn and not (each.remote == "external" and there != own):
            config.tell(each.line, "%s: it is %s of AS %d, and not of AS %s, so that no session comes up" % (
                said, other, there, each.remote))
        elif there != own and frozenset((name, other)) not in self.links:
            config.tell(each.line, "%s: it is in another AS, and no subnet links the two; here a session with another "
                        "AS needs a link" % said)
        else:
            return other
        return ""

    def _spoken_for(self, name: str, other: str) -> List[str]:
        """The ASes for which a router speaks to another one by `local-as`, as words."""
        config = self.routers[name]
        return [config.settled(each).word("local-as").split(" ")[0] for each in config.neighbours.values()
                if self.owners.get(each.name) == other]

    def _virtual(self, name: str, config: Config, each: Neighbour, asn: int) -> None:
        peer = each.name
        if peer not in self.virtuals:
            self.virtuals[peer] = asn
            alike = sorted((own for own, there in self.routers.items() if there.asn == asn), key=by_address)
            if alike:
                config.tell(each.line, "%s: no file has this address, so it is a virtual peer, to be fed, though %s "
                            "is of AS %d; is an interface of it missing?" % (
                    short(each.line.text), self.routers[alike[0]].name, asn))
        found = config.subnet_of(peer)
        if found is None and config.interfaces:
            config.tell(each.line, "%s: no subnet leads to it; it has a link of cost 1 here" % short(each.line.text))
        self._link(Link(name, peer, found[0] if found else Interface("", each.line, 1), own=found[1] if found
                        else None))
        for near, there in self.routers.items():
            beside = there.subnet_of(peer) if near != name and there.asn == config.asn else None
            if beside and found and beside[1].subnet == found[1].subnet:
                self._link(Link(near, peer, beside[0], own=beside[1]))


def _subnets(interface: Interface) -> Iterator[Tuple[object, Address]]:
    """What the two ends of a link have in common: a subnet, or both addresses; of an interface without either a subnet
    of
    IPv6."""
    wide = [(each.subnet, each) for each in interface.addresses if each.length < 32 and not each.opposite]
    opposite = [(frozenset((each.own, each.opposite)), each) for each in interface.addresses if each.opposite]
    six = [(subnet, Address(own, 32, interface.line)) for subnet, own in interface.six]
    yield from [*wide, *opposite] or six
