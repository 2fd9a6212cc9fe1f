"""What holds for routers of any kind, and no script says: told for each session, prefix or router that it concerns,
with what to write."""
from __future__ import annotations

from typing import Dict, List, Optional, Tuple

from ...program.language import address, by_address, contains
from .configuration import Address, Config, Neighbour, Prefix, masked, place, short
from .igp import has_interior, interface_with, is_loopback, knows, runs_over
from .network import Link, Network
from .report import listed

# So many rules of a kind are written out in what is told.
SHOWN = 4


def check_network(network: Network) -> None:
    """What of it holds for any routing daemon."""
    for link in network.links.values():
        _check_link(network, link)
    _check_shared(network)
    _check_masks(network)
    _check_names(network)
    _check_areas(network)
    for name, config in network.routers.items():
        _check_cluster(network, name, config)
    for name, other in network.peers:
        check_next_hop = _check_next_hop if network.is_external(name, other) else _check_reflected
        check_next_hop(network, name, other, network.peers[name, other])


# Links

def _check_link(network: Network, link: Link) -> None:
    config = network.routers[link.one]
    for each in link.others:
        config.tell(each.here.line, "%s: there is a second link to %s; two routers have one, and `fail %s "
                    "%s` takes both" % (short(each.here.line.text), link.other, link.one, link.other))
    if link.there is None:
        return
    if link.here.cost != link.there.cost:
        config.tell(link.here.line, "%s: the cost of the link to %s is %d here and %d there; a link has "
                    "one cost, %d" % (
            short(link.here.line.text), link.other, link.here.cost, link.there.cost, link.here.cost))
    for each in [link, *link.others]:
        _tell_difference(network, link, each)
    if not network.is_external(link.one, link.other) and link.own and link.opposite and not link.is_down:
        ends = ((config, link.here, link.own), (network.routers[link.other], link.there, link.opposite))
        if any(has_interior(end[0]) for end in ends) and not all(runs_over(*end) for end in ends):
            config.tell(link.here.line, "%s: OSPF or IS-IS does not run over the link to %s, so that FRR's interior "
                        "does not use it; here it does. Write `fail %s %s` for that" % (
                short(link.here.line.text), link.other, link.one, link.other))


def _tell_difference(network: Network, link: Link, each: Link) -> None:
    """Tells a link that OSPF or IS-IS does not use, since its ends say other things."""
    said = each.difference
    if said is None or network.is_external(each.one, each.other) or each.here.is_down:
        return
    is_here = bool(said.here.file)
    config, other = network.routers[each.one if is_here else each.other], each.other if is_here else each.one
    said = said if is_here else said.turned()
    head = "%s: the link to %s: %s" % (short(said.here.text), network.called(other), said)
    if each is not link:
        config.tell(said.here, "%s; another link of the two stands for it here" % head, False)
    elif link.is_unused:
        config.tell(said.here, "%s; it fails here, too" % head, False)
    else:
        config.tell(said.here, "%s. A session or a static route is on its addresses, so that it stays here, and the "
                    "interior uses it; FRR's does not" % head)


def _check_shared(network: Network) -> None:
    """Subnets of more than two ends."""
    for ends in network.shared:
        names = sorted({end[0] for end in ends}, key=by_address)
        first = next(end for end in ends if end[0] == names[0])
        config, line = network.routers[names[0]], first[2].line
        config.tell(line, "%s: %d routers share the subnet; here each two of them have a link, and `fail` takes one "
                    "of these, not an interface" % (short(line.text), len(names)))
        keeping = [name for name in names if any(network.is_external(name, other)
                                                 for other in _peers_among(network, name, names))
                                                 and len(_peers_among(network, name, names)) > 1]
        if keeping:
            config.tell(line, "%s: %s has sessions with several on the subnet, and FRR tells them each other's "
                        "address as next hop; here it puts itself" % (short(line.text), keeping[0]))


def _check_masks(network: Network) -> None:
    """Interfaces that have each other's address in their subnets, which are not the same: they are no link here."""
    wide = [(name, each) for name, config in network.routers.items() for interface in config.interfaces.values()
            for each in interface.addresses if each.own and each.length < 32 and not each.opposite
            and not is_loopback(interface)]
    by_subnet: Dict[Prefix, List[Tuple[str, Address]]] = {}
    for name, each in wide:
        by_subnet.setdefault(each.subnet, []).append((name, each))
    lengths = sorted({subnet[1] for subnet in by_subnet})
    for name, each in wide:
        for length in (length for length in lengths if length < each.length):
            for other, there in by_subnet.get(masked(address(each.own) or 0, length), ()):
                if other != name and contains(each.subnet, (address(there.own) or 0, 32)):
                    network.routers[name].tell(
                        each.line, "%s: the mask is of %d bits here and of %d at %s (%s), so that the two are no link "
                        "here; write one mask, or `link %s %s 10`" % (short(each.line.text), each.length, there.length,
                            network.called(other), place(there.line), name, other))


def _peers_among(network: Network, name: str, names: List[str]) -> List[str]:
    return [other for other, _ in network.peers_of(name) if other in names]


def _check_areas(network: Network) -> None:
    for asn in sorted({config.asn or 0 for config in network.routers.values()}):
        areas = [(area, config, line) for config in network.routers.values() if config.asn == asn
                 for area, line in config.areas.items()]
        other = next((each for each in areas if each[0] != areas[0][0]), None)
        if other:
            other[1].tell(other[2], "%s: AS %d has several areas, and OSPF prefers ways inside of one; here the "
                          "costs alone count" % (short(other[2].text), asn), is_certain=False)


def _check_names(network: Network) -> None:
    owners: Dict[str, Config] = {}
    for config in network.routers.values():
        first = owners.setdefault(config.hostname, config) if config.hostname else config
        if first is not config:
            config.tell(config.hostname_line, "%s: it is the name of %s, too; name them by address" % (
                config.hostname_line.text, first.name), False)


def external_peers(network: Network, name: str) -> List[str]:
    """The neighbours of a router that are in another AS."""
    return [other for other, _ in network.peers_of(name) if network.is_external(name, other)]


def compares_med(network: Network, name: str) -> bool:
    """Whether a router may have three routes of which two come from one neighbouring AS."""
    asn = network.routers[name].asn
    around = [network.asn_of(other) for router, config in network.routers.items() if config.asn == asn
              for other in external_peers(network, router)]
    return len(network.peers_of(name)) > 2 and len(around) > 2 and len(set(around)) < len(around)


def _check_cluster(network: Network, name: str, config: Config) -> None:
    line = config.cluster_line
    if config.cluster and name not in network.reflectors:
        config.tell(line, "%s: FRR drops routes that passed this cluster, and here a router without clients does not" %
                    short(line.text), is_certain=False)


def _check_reflected(network: Network, name: str, other: str, each: Neighbour) -> None:
    """A reflector tells the others of its AS routes with the address of the one that it has them from as next hop."""
    config = network.routers[name]
    clients = [peer for peer, client in network.peers_of(name) if client.has("route-reflector-client")]
    if not clients or frozenset((name, other)) in network.stopped or other not in network.routers:
        return
    if each.has("force"):
        config.tell(each.at("force"), "%s: FRR puts itself as next hop of the routes that it reflects, too; here "
                    "those keep theirs" % short(each.at("force").text))
    told = [peer for peer, _ in network.peers_of(name) if peer != other and not network.is_external(name, peer)
            and (other in clients or peer in clients)]
    where, carrier = network.addresses[name, other], network.routers[other]
    lost = [peer for peer in told if network.routers[peer].interfaces and carrier.interfaces
            and not knows(network.routers[peer], where, carrier)]
    if lost:
        config.tell(each.line, "%s: nothing in the files makes the way to this address known to %s, which FRR then "
                    "does not resolve as the next hop of what is reflected from there; here it is. Let OSPF carry its "
                    "subnet; no rule says what FRR does, since none matches the router that a route is reflected from"
                    % (short(each.line.text), listed(lost)))


# Next hops at a border

def _check_next_hop(network: Network, name: str, other: str, each: Neighbour) -> None:
    """Whether the interior resolves the next hop of what comes from another AS, where the router does not put
    itself."""
    config, where = network.routers[name], network.addresses[name, other]
    hearing = _hearing(network, name)
    if not hearing or not config.interfaces:
        return
    carriers = [config] + ([network.routers[other]] if _run_together(network, name, other) else [])
    ways = {there: next(filter(None, (knows(network.routers[there], where, carrier) for carrier in carriers)), "")
            for there in hearing if network.routers[there].interfaces}
    lost = [there for there, by in ways.items() if not by]
    told = short(each.line.text)
    heading = " ".join("`self %s %s on`" % (name, there) for there, inside in network.peers_of(name)
                       if not network.is_external(name, there) and not inside.has("next-hop-self"))
    if lost:
        config.tell(each.line, "%s: nothing in the files makes the way to this next hop known to %s, which FRR then "
                    "does not resolve, so that the routes are not used there; here they are. FRR needs "
                    "`next-hop-self` (write %s), or the subnet in OSPF; %s" % (
                        told, listed(lost), heading, _denials(network, name, lost, network.asn_of(other))))
    elif len(_borders(network, config.asn)) > 1 and {"static", "external", "bgp"} & set(ways.values()):
        config.tell(each.line, "%s: the interior reaches this next hop by an external or static route, whose cost "
                    "counts in FRR; here the costs of the links to it count" % told, is_certain=False)
    elif any(network.routers[near].subnet_of(where) is None for near in _near(network, name, other)):
        config.tell(each.line, "%s: %s has links to several routers of AS %d, and is one next hop here, which each "
                    "router reaches by the nearest link; in FRR each link has its own. "
                    "With `next-hop-self` it is the same (write %s)" % (told, other, config.asn or 0, heading))


def _denials(network: Network, name: str, lost: List[str], asn: int) -> str:
    """The rules by which a border's routes are not used at these routers."""
    direct = [there for there, _ in network.peers_of(name) if there in lost]
    if not direct:
        return "no rule says what FRR does of what a reflector sends on"
    rules = ["`rule %s %s out first %d deny`" % (name, there, asn) for there in direct]
    return "for what FRR does write %s" % listed(rules, SHOWN)


def _run_together(network: Network, name: str, other: str) -> bool:
    """Whether OSPF or IS-IS runs over the link with a router of another AS."""
    link = network.links.get(frozenset((name, other)))
    if link is None or link.there is None or link.own is None or link.opposite is None or link.difference:
        return False
    return runs_over(network.routers[link.one], link.here, link.own) and runs_over(network.routers[link.other],
        link.there, link.opposite)


def _hearing(network: Network, name: str) -> List[str]:
    """The routers of the AS that hear external routes of a border with the next hop as it came."""
    inside = [(other, each) for other, each in network.peers_of(name) if not network.is_external(name, other)]
    direct = [other for other, each in inside if not each.has("next-hop-self")
              and frozenset((name, other)) not in network.stopped]
    reflecting = not network.reflectors.isdisjoint(direct)
    asn = network.routers[name].asn
    return [other for other, config in network.routers.items() if config.asn == asn and other != name
            and network.peers_of(other)] if reflecting else direct


def _near(network: Network, name: str, other: str) -> List[str]:
    """The other routers of the AS that have a link to what is outside, where its address is one of a link."""
    found = interface_with(network.routers[other], network.addresses[name,
        other]) if other in network.routers else None
    if found is not None and is_loopback(found):
        return []
    near = {end for key in network.links if other in key for end in key if end in network.routers}
    return sorted(each for each in near - {name, other} if not network.is_external(name, each))


def _borders(network: Network, asn: Optional[int]) -> List[str]:
    return [name for name, config in network.routers.items() if config.asn == asn and external_peers(network, name)]
