"""Where FRR counts other costs to next hops than the links say: nothing to those on a router's own subnets, and the
cost of the interface that has the address."""
from __future__ import annotations

from typing import Dict, List, NamedTuple, Optional, Set

from ...network.graph_search import least_costs
from .configuration import short
from .igp import interface_with, is_loopback, is_static
from .network import Network


class Way(NamedTuple):
    """A next hop that a router may use: whose it is, its cost here, and its cost in FRR."""
    other: str
    here: int
    there: int


def check(network: Network, bringing: Set[str]) -> None:
    """Tells each router that may choose by another cost. `bringing`: the routers that have routes of their own."""
    for name in network.routers:
        costs = costs_from(network, name)
        for is_external in (True, False):
            ways = [way for other, _ in network.peers_of(name) if network.is_external(name, other) == is_external
                    for way in [_way(network, costs, name, other, bringing)] if way]
            _tell(network, name, ways)


def _tell(network: Network, name: str, ways: List[Way]) -> None:
    for one in ways:
        other = next((each for each in ways if _sign(one.here - each.here) != _sign(one.there - each.there)), None)
        if other is not None:
            line = network.peers[name, one.other].line
            network.routers[name].tell(line, "%s: FRR counts 0 to a next hop on its own subnets, and the interface of "
                                       "the address beyond: to %s it counts %d and to %s %d; here it is %d and %d. "
                                       "Where nothing before decides, the lower one wins" % (
                                           short(line.text), one.other, one.there, other.other, other.there, one.here,
                                           other.here))
            return


def _sign(value: int) -> int:
    return (value > 0) - (value < 0)


def _way(network: Network, costs: Dict[str, int], name: str, other: str, bringing: Set[str]) -> Optional[Way]:
    """The next hop that comes over a session, nothing where the session brings none of its own or no way leads
    there."""
    if frozenset((name, other)) in network.stopped:
        return None
    link = network.links.get(frozenset((name, other)))
    if network.is_external(name, other):
        return Way(other, link.here.cost, _told_cost(network, costs, name, other,
                                                     link.here.cost)) if link and not link.is_down else None
    back = network.peers[other, name]
    is_border = back.has("next-hop-self") and any(network.is_external(other, each)
                                                  for each, _ in network.peers_of(other))
    if other not in costs or not (is_border or other in bringing):
        return None
    return Way(other, costs[other], _told_cost(network, costs, name, other, costs[other]))


def _told_cost(network: Network, costs: Dict[str, int], name: str, other: str, distance: int) -> int:
    """FRR's cost to the address of a session."""
    config, where = network.routers[name], network.addresses[name, other]
    found = config.subnet_of(where)
    if found and not found[0].is_down or is_static(config, where):
        return 0
    if other not in network.routers:
        return distance
    interface = interface_with(network.routers[other], where)
    if interface is None:
        return distance
    far = [costs[end] + (link.here if link.one == end else link.there or link.here).cost
           for link in network.links.values() if not is_loopback(interface) and interface in (link.here, link.there)
           for end in link.ends if end in costs]
    return min([distance + interface.cost, *far])


def costs_from(network: Network, name: str) -> Dict[str, int]:
    """The cost from a router to each one of its AS, over links that are up."""
    return least_costs({(link.one, link.other): link.here.cost for link in network.links.values() if not link.is_down
                  and link.other not in network.virtuals and not network.is_external(link.one, link.other)}, name)
