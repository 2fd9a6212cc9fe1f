"""What a router originates, and where the router would choose otherwise than a script."""
from __future__ import annotations

from typing import Dict, Iterator, List, NamedTuple, Tuple

from ...program.language import address, contains
from .configuration import Config, Line, Prefix, Static, short
from .igp import carried, has_interior
from .network import Network
from .policy import Action, Match, Rules, covers, is_, meet
from .regions import shown
from .report import listed

OWN = 100
# FRR redistributes no subnet of these: 127.0.0.0/8 and 169.254.0.0/16.
OF_NO_NETWORK = ((0x7F000000, 8), (0xA9FE0000, 16))


class Own(NamedTuple):
    """A prefix that a router originates: the line that says so, and whether FRR prefers it by weight."""
    where: Prefix
    line: Line
    has_weight: bool


def is_active(network: Network, name: str, static: Static) -> bool:
    """Whether the files show that what a static route leads to is there: an interface that is up, or a way to its
    gateway
    that is connected, static or of OSPF or IS-IS."""
    config = network.routers[name]
    named, gateway = config.interfaces.get(static.way), address(static.way)
    if named is not None or gateway is None:
        return named is None or not named.is_down
    found = config.subnet_of(static.way)
    if network.owners.get(static.way) == name:
        return False
    if found is not None:
        return not found[0].is_down
    where = (gateway, 32)
    over = [each for each in config.statics if each.where[1] and each.where != static.where
            and contains(each.where, where)]
    learned = has_interior(config) and any(carried(there, static.way) in ("interior", "external")
                                           for other, there in network.routers.items() if other != name)
    return bool(over) or learned


def own_next_hops(network: Network, owns: Dict[str, List[Own]], name: str, other: str) -> List[Prefix]:
    """The prefixes that a neighbour would be told with the one address in them as next hop, which FRR does not use,
    unless
    it takes the teller for its client."""
    back = network.peers.get((other, name))
    if back is None or back.has("route-reflector-client"):
        return []
    found = [own.where for own in owns[name] if shown(own.where) == network.addresses[other, name] + "/32"]
    if name in network.reflectors and not network.is_external(name, other):
        # What a reflector took from its clients keeps its next hop.
        clients = [there for there, each in network.peers_of(name) if each.has("route-reflector-client")]
        found += [own.where for there in clients if there != other for own in owns.get(there, [])
                  if shown(own.where) == network.addresses[name, there] + "/32"]
    return found


def tell_gateways(network: Network) -> None:
    """Static routes keep their gateway as next hop inside the AS, and towards neighbours on the gateway's subnet."""
    for name, config in network.routers.items():
        line = next((origin.line for origin in config.origins if origin.kind == "static"), None)
        ways = [static.way for static in config.statics if address(static.way) is not None]
        keeping = [other for other, each in network.peers_of(name) if not each.has("next-hop-self")
                   and any(_keeps(network, name, other, way) for way in ways)]
        if line and keeping:
            config.tell(line, "%s: FRR tells these routes to %s with the gateway as next hop, and a gateway does "
                        "not take them "
                        "from it; here the router is their next hop" % (short(line.text), keeping[0]))


def _keeps(network: Network, name: str, other: str, way: str) -> bool:
    if not network.is_external(name, other):
        return True
    found = network.routers[name].subnet_of(way)
    return found is not None and network.routers[name].subnet_of(network.addresses[name, other]) == found


def tell_weights(network: Network, owns: Dict[str, List[Own]], policies: Dict[Tuple[str, str, str],
    Rules[Action]]) -> None:
    """Own routes that win in FRR by weight, and lose here to a route that a policy prefers."""
    for name, found in owns.items():
        asn = network.routers[name].asn
        for (border, peer, way), rules in policies.items():
            if way == "in" and network.routers[border].asn == asn:
                _tell_weights(network.routers[name], found, name, border, peer, rules)


def _tell_weights(config: Config, owns: List[Own], name: str, border: str, peer: str, rules: Rules[Action]) -> None:
    """Each line of origins that routes of a neighbour may win over, once."""
    losing: Dict[Line, List[Prefix]] = {}
    above = OWN
    for own in owns:
        highest = max(_preferences(rules, is_(own.where)), default=0)
        if own.has_weight and highest > OWN:
            losing.setdefault(own.line, []).append(own.where)
            above = max(above, highest)
    for line, found in losing.items():
        config.tell(line, "%s: FRR prefers %s's own route to %s by weight; here a route of %s may have preference "
                    "%d at %s, and wins. For what FRR does put `rule %s %s in is %s permit` first there" % (
            short(line.text), name, listed([shown(where) for where in found]), peer, above, border, border, peer,
            shown(found[0])), is_certain=False)


def _preferences(rules: Rules[Action], wanted: Match) -> Iterator[int]:
    """The preferences that the rules may give to routes to a prefix."""
    for match, action in rules:
        if meet(match, wanted):
            yield int(dict(action.settings).get("pref", "0"))
        if covers(match, wanted):
            return
