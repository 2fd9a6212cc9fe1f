"""What a configuration says that no script does: told for each session, prefix or router that it concerns, with what
to write."""
from __future__ import annotations

from typing import Dict, List

from ...program.language import address
from ..common.checks import check_network, compares_med, external_peers
from ..common.configuration import Config, Neighbour, short
from ..common.network import Network
from ..common.report import listed
from .rules import requires_policy

# What FRR does of MED without `bgp deterministic-med`.
_IN_ORDER = ("compares each route with the best before it, so that where MED decides between some of three the choice "
             "depends on their order; here all routes of a neighbouring AS are compared")


def check(network: Network) -> None:
    """All that is told of the network as a whole."""
    check_network(network)
    _check_costs(network)
    _check_choice(network)
    for name, config in network.routers.items():
        _check_required(network, name, config)
        _check_six(config)
        _check_net(config)
        _check_interfaces(config)
        _check_unused(config)


def _check_costs(network: Network) -> None:
    """Costs that FRR takes from the speed of an interface, where other links of the AS have one that is set."""
    for asn in sorted({config.asn or 0 for config in network.routers.values()}):
        inside = [link for link in network.links.values() if link.there
                  and all(network.routers[end].asn == asn for end in link.ends)]
        unset = [link for link in inside if not link.here.has_cost]
        if unset and len(unset) < len(inside):
            link = unset[0]
            network.routers[link.one].tell(link.here.line, "%s: it has no `ip ospf cost`, as %d of the %d links of AS "
                                           "%d; FRR takes the cost from the interface's speed, and here it is 10" % (
                short(link.here.line.text), len(unset), len(inside), asn))


# How routes are chosen

def _check_choice(network: Network) -> None:
    """Told once: what of the choice is other in all routers that do not say otherwise."""
    oldest = [name for name, config in network.routers.items() if len(external_peers(network, name)) > 1
              and not config.is_on("bgp bestpath compare-routerid")]
    if oldest:
        config = network.routers[oldest[0]]
        config.tell(config.line, "%s: of external routes that are alike FRR keeps the one that came first, and here "
                    "the lower identifier wins; so it is at %s. "
                    "`bgp bestpath compare-routerid` makes FRR do the same" % (short(config.line.text), listed(oldest)),
                    is_certain=False)
    _check_order_of_med(network)


def _check_order_of_med(network: Network) -> None:
    """Where FRR compares routes in the order in which they came: each line that says so is told, and the default once.
    Over all neighbours the order does not matter."""
    ordered = {name: config for name, config in network.routers.items()
               if not config.is_on("bgp deterministic-med") and not config.is_on("bgp always-compare-med")}
    by_line = [name for name, config in ordered.items() if "bgp deterministic-med" in config.flags]
    for name in by_line:
        _, line = ordered[name].flags["bgp deterministic-med"]
        ordered[name].tell(line, "%s: FRR %s. `bgp deterministic-med` makes FRR do the same" % (
            short(line.text), _IN_ORDER), is_certain=False)
    grouped = [name for name in ordered if name not in by_line and compares_med(network, name)]
    if grouped:
        config = ordered[grouped[0]]
        config.tell(config.line, "%s: without `bgp deterministic-med`, which is off by default but in the datacenter "
                    "profile, FRR %s; so it is at %s. `bgp deterministic-med` makes FRR do the same" % (
                        short(config.line.text), _IN_ORDER, listed(grouped)), is_certain=False)


def _check_required(network: Network, name: str, config: Config) -> None:
    """Neighbours whose routes are denied for want of a policy: a note for those that lack the same one."""
    lacking: Dict[str, List[Neighbour]] = {}
    for other, each in network.peers_of(name):
        ways = [way for way in ("in", "out") if requires_policy(config, each, way, network.is_external(name, other))]
        if ways and frozenset((name, other)) not in network.stopped:
            lacking.setdefault(" and ".join(ways), []).append(each)
    for said, found in lacking.items():
        line = found[0].line
        config.tell(line, "%s: there is no policy on the way %s for %s; FRR denies all routes there (RFC 8212), and so "
                    "do the rules here. If FRR is to take them, write `no bgp ebgp-requires-policy` below `router bgp`"
                    % (short(line.text), said, ", ".join(each.name for each in found)), False)


def _check_six(config: Config) -> None:
    """Sessions over IPv6 that carry IPv4 unicast, too."""
    for each in map(config.settled, config.neighbours_six.values()):
        if not each.remote:
            config.tell(each.line, "%s: it has no remote-as, so that FRR has no session with it" %
                        short(each.line.text))
        if each.remote and each.flags.get("activate", (config.is_on("bgp default ipv4-unicast"), each.line))[0]:
            config.tell(each.line, "%s: FRR tells routes of IPv4 over this session, too (`no neighbor %s activate` "
                        "ends that); here it is not made" % (short(each.line.text), each.name))


def _check_net(config: Config) -> None:
    """A router whose IS-IS has no identifier, so that it does not run."""
    running = [interface.said["isis"][1] for interface in config.interfaces.values() if "isis" in interface.said]
    if config.has_isis and running and "net" not in config.said:
        config.tell(running[0], "%s: there is no `net` below `router isis`, so that FRR runs no IS-IS; here its links are "
                    "used. Write `net`, or `fail` for each link" % short(running[0].text))


def _check_interfaces(config: Config) -> None:
    """Lines that ask for an interface that the router's files do not have."""
    sources = [(each.at("update-source"), each.word("update-source"))
               for each in [*config.neighbours.values(), *config.groups.values()] if each.word("update-source")]
    for line, name in config.asked + sources:
        if config.interfaces and name not in config.interfaces and address(name) is None:
            config.tell(line, "%s: no interface `%s` is in the files of this router; it is taken for being up" % (
                short(line.text), short(name)), False)


def _check_unused(config: Config) -> None:
    """Route maps and lists that no line of the router's files names."""
    maps = {name: entries[min(entries)].line for name, entries in config.maps.items() if entries}
    lists = {name: entries[min(entries)].line for table in (config.prefix_lists, config.access_lists,
             config.path_lists, config.community_lists) for name, entries in table.items() if entries}
    for name, line in {**lists, **maps}.items():
        if name not in config.words:
            config.tell(line, "%s: no line names `%s`, so that it decides nothing" % (short(line.text), short(name)),
                        False)
