"""What BIRD does otherwise than a script says: told for each session or router that it concerns."""
from __future__ import annotations

from typing import Dict, List, Set, Tuple, cast

from ...program.language import address, contains, show_address
from ..common.checks import check_network, compares_med
from ..common.configuration import Neighbour, place, short
from ..common.igp import carried, covered
from ..common.igp_costs import costs_from
from ..common.network import Network
from ..common.report import listed
from .configuration import BirdConfig, Session
from .filters import Function, Node, nodes_in
from .rules import ENUMS, SYMBOLS, WELL_KNOWN

_IN_ORDER = ("without `deterministic med`, which is off by default, BIRD compares each route with the best before it, "
             "so that where MED decides between some of three the choice depends on their order; here all routes of a "
             "neighbouring AS are compared; so it is at %s. `deterministic med on` makes BIRD do the same")


# Statements that are known and not followed, and functions of BIRD's own.
FOLLOWED_NOT = ("case", "for", "unset")
BUILT_IN = ("roa_check", "aspa_check", "prepend", "add", "delete", "filter", "format", "from", "empty", "set", "append",
            "reset", "defined", "preference", "weight")


def settle(config: BirdConfig) -> None:
    """Puts together what a router's sessions say each: MED over all neighbours, its cluster, roles."""
    sessions = [each for each in config.sessions() if not each.has("shutdown")]
    _agreed(config, sessions, "med-metric", "bgp always-compare-med")
    _agreed(config, sessions, "deterministic", "bgp deterministic-med")
    clusters = {each.word("cluster"): each for each in sessions if each.word("cluster")}
    for cluster, each in clusters.items():
        if config.cluster:
            config.tell(each.at("cluster"), "%s: a router has one cluster here, %s" % (short(each.at("cluster").text),
                                                                                      config.cluster))
        else:
            config.cluster, config.cluster_line = cluster, each.at("cluster")
    for each in sessions:
        role, line = each.word("local-role"), each.at("local-role")
        if role and each.has("roles"):
            each.words["local-role"] = (role + " strict-mode", line)


def _agreed(config: BirdConfig, sessions: List[Session], flag: str, known: str) -> None:
    """A setting of each session that is one of the router here: on where all have it."""
    having = [each for each in sessions if each.has(flag)]
    if having and len(having) == len(sessions):
        config.flags[known] = (True, having[0].at(flag))
    for each in having if len(having) < len(sessions) else ():
        config.tell(each.at(flag), "%s: it stands at %d of %d sessions, and a router compares MED in one way here; it "
                    "is left out" % (short(each.at(flag).text), len(having), len(sessions)))


def stop(network: Network) -> None:
    """Stops sessions whose ends have other addresses for each other than they use."""
    for (name, other), each in network.peers.items():
        back = network.peers.get((other, name))
        if back is not None and back.word("update-source") not in ("", each.name):
            network.stopped.add(frozenset((name, other)))
            network.routers[name].tell(each.line, "%s: the other end has `local %s`, so that the session never comes "
                                       "up (%s); it is stopped here, too" % (
                                           short(each.line.text), back.word("update-source"),
                                           place(back.at("update-source"))), False)


def check(network: Network) -> None:
    """All that is told of the network as a whole."""
    check_network(network)
    _check_order(network)
    for name, config in network.routers.items():
        for six in config.neighbours_six.values():
            if "ipv4" in six.words:
                config.tell(six.line, "%s: BIRD tells routes of IPv4 over this session, too; here it is not made" %
                            short(six.line.text))
        _check_kernel(network, name, cast(BirdConfig, config))
        costs = costs_from(network, name)
        for other, each in network.peers_of(name):
            _check_way(network, name, other, each, other in costs)
            _check_resolved(network, name, other, cast(Session, each))


def _check_kernel(network: Network, name: str, config: BirdConfig) -> None:
    """A router whose kernel is not given any routes reaches none of its AS, but those on its own subnets."""
    inside = [each for other, each in network.peers_of(name) if not network.is_external(name, other)
              and config.subnet_of(each.name) is None]
    if inside and config.has_ospf and "kernel" not in config.protocols.values():
        line = inside[0].line
        config.tell(line, "%s: there is no `protocol kernel`, so that the kernel has no way to this address by BIRD; "
                    "it is taken for having one" % short(line.text), False)


def _check_order(network: Network) -> None:
    ordered = [name for name, config in network.routers.items() if not config.is_on("bgp deterministic-med")
               and not config.is_on("bgp always-compare-med") and compares_med(network, name)]
    if ordered:
        config = network.routers[ordered[0]]
        config.tell(config.line, "%s: %s" % (short(config.line.text), _IN_ORDER % listed(ordered)), is_certain=False)


def _check_way(network: Network, name: str, other: str, each: Neighbour, has_way: bool) -> None:
    """An internal session that is down here, since nothing links its ends. Where a link fails since OSPF does not use
    it, that is told."""
    is_stopped = frozenset((name, other)) in network.stopped or any(
        link.is_unused for link in network.links.values() if not network.is_external(name, link.one))
    if not network.is_external(name, other) and not has_way and not is_stopped:
        network.routers[name].tell(each.line, "%s: nothing in the files links %s and %s, so that the session is down "
                                   "here; write `link A B M`" % (short(each.line.text), name, other))


def _check_resolved(network: Network, name: str, other: str, each: Session) -> None:
    """A session that is not `direct`, whose neighbour's address no protocol puts into BIRD's table: BIRD does not
    resolve the next hop of what comes over it."""
    config = cast(BirdConfig, network.routers[name])
    if each.is_on_a_link(config) or frozenset((name, other)) in network.stopped:
        return
    where, carrier = network.addresses[name, other], network.routers.get(other)
    value, found = address(where) or 0, config.subnet_of(where)
    # Without `NAME.addresses` it is not known which subnets the router has.
    is_known = config.direct is not None and (found is not None or not config.has_addresses)
    is_known = is_known or found is not None and covered(config, *found)
    is_known = is_known or any(contains(static.where, (value, 32)) for static in config.statics)
    if not is_known and not (carrier is not None and config.has_ospf and carried(carrier, where)):
        config.tell(each.line, "%s: neither `protocol direct` nor a static route nor OSPF has its address, so that BIRD "
                    "does not resolve the next hop of what comes over it, and the routes are unreachable; here they "
                    "are used. Write `protocol direct { ipv4; }` in BIRD's file, or `stop %s %s`" % (
                        short(each.line.text), name, other))


def tell_policy(config: BirdConfig, session: Session, way: str) -> None:
    """Tells a session with another AS that has no policy."""
    if "ipv4" in session.words:
        what = "import" if way == "in" else "export"
        config.tell(session.line, "%s: it has no `%s`, and BIRD takes no configuration with such a session to another "
                    "AS (RFC 8212); nothing passes here" % (short(session.line.text), what))


def tell_unknown(config: BirdConfig) -> None:
    """Tells words of filters that are not known, where no way through a filter leads there, so that they were not
    told."""
    told: Dict[Tuple[str, int], str] = {}
    for each in config.told:
        told[each.file, each.line] = told.get((each.file, each.line), "") + each.text
    policies = [policy.statements for session in config.sessions() for policy in session.policies.values()]
    bodies = [Function((), body) for body in [*config.filters.values(), *policies]]
    for parameters, body in [*bodies, *config.functions.values()]:
        known = {*parameters, *config.constants, *config.functions, *SYMBOLS, *WELL_KNOWN, ""}
        nodes = list(nodes_in(body))
        known.update(node.of[0] for node in nodes if node.what == "declare")
        for node in nodes:
            said = told.get((node.line.file, node.line.number), "")
            if _is_unknown(node, known) and "`%s`" % short(node.of[0]) not in said:
                config.tell(node.line, "%s: from-bird does not know `%s`; nothing comes of it" % (
                    short(node.line.text), short(node.of[0])))


def _is_unknown(node: Node, known: Set[str]) -> bool:
    """Whether a node of a filter begins with a word that is neither BIRD's nor declared."""
    if node.what == "other":
        return node.of[0] not in FOLLOWED_NOT
    if node.what in ("set", "do", "call", "called", "name"):
        return node.of[0] not in known and not node.of[0].startswith(("bgp_", *ENUMS)) and node.of[0] not in BUILT_IN
    return False


def some_prefixes(found: "List[tuple[int, int]]") -> str:
    """Some prefixes, in a text that is told."""
    return listed(["%s/%d" % (show_address(value), length) for value, length in found])
