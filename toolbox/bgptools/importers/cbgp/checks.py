"""What C-BGP does otherwise than a script, though each line was taken over: ways that it does not know, costs that it
has not computed, and what it prefers."""
from __future__ import annotations

from typing import Dict, List, Set, Tuple

from ...program.language import by_address
from .network import Domain, Network
from .script import Picture


def check(source: Network, picture: Picture) -> None:
    """Tells what differs in the network as it is now."""
    for domain in source.domains.values():
        _check_domain(source, domain)
    for one, other in _sessions(picture):
        _check_ways(source, picture, one, other)
        if picture.made.is_external(one, other):
            _check_next_hop(source, picture, one, other)
    for where in picture.made.routers():
        _check_costs(source, picture, where)
    _check_networks(source, picture)
    _check_meds(source, picture)


def _sessions(picture: Picture) -> List[Tuple[str, str]]:
    """Each way of each session that is enabled, from its routers."""
    found = [tuple(both) for both, is_up in picture.made.enabled.items() if is_up]
    ways = [way for one, other in found for way in ((one, other), (other, one)) if picture.made.is_router(way[0])]
    return sorted(ways, key=lambda way: (by_address(way[0]), by_address(way[1])))


def _check_domain(source: Network, domain: Domain) -> None:
    inside = [node for node in source.nodes.values() if node.domain == domain.number]
    if len(inside) > 1 and domain.computed is None:
        source.tell(domain.line, "domain %d is never computed (`net domain %d compute`): C-BGP has no ways in it; here "
                                 "costs are those of the links" % (domain.number, domain.number))
    for line, wanted in ((domain.stale, "net domain %d compute"), (domain.unscanned, "bgp domain N rescan")):
        if line is not None:
            how = wanted % domain.number if "%" in wanted else wanted
            source.tell(line, "%s: without `%s` behind it C-BGP goes on as before; here it acts at once" % (
                line.text, how))


def _check_ways(source: Network, picture: Picture, one: str, other: str) -> None:
    if not source.knows(one, other):
        line = picture.sessions[frozenset((one, other))]
        source.tell(line, "%s has no route to %s: no common domain and no `net node %s route add`; C-BGP keeps the "
                          "session down, and here it is up while links lead there" % (one, other, one))


def _check_next_hop(source: Network, picture: Picture, one: str, other: str) -> None:
    """An external neighbour's address is a next hop, to which all in the AS have to know a way."""
    peers = sorted(picture.made.peers[one], key=by_address)
    lost = [each for each in peers if picture.made.enabled[frozenset((one, each))]
            and not picture.made.is_external(one, each) and (one, each) not in picture.made.selves
            and not source.knows(each, other)]
    if lost:
        more = " and %d more" % (len(lost) - 1) if len(lost) > 1 else ""
        source.tell(picture.sessions[frozenset((one, other))], (
            "%s%s of AS %d has no route to the next hop %s, and C-BGP does not use what comes from there; here the "
            "links lead there. `peer %s next-hop-self` at %s makes it known; else write `rule %s %s out first %d deny`"
        ) % (lost[0], more, picture.made.nodes[one].asn, other, other, one, one, lost[0],
             picture.made.nodes[other].asn))


def _check_costs(source: Network, picture: Picture, where: str) -> None:
    """Metrics of 0 are 1 here, which is another cost where a route of 1 stands beside."""
    statics = [found for other in source.around.get(where, ()) for found in [source.route_to(where, other)]
               if found is not None and other in picture.made.nodes and picture.made.is_external(where, other)]
    for static in statics:
        if static.metric == 0 and any(each.metric == 1 for each in statics):
            source.tell(static.line, "%s: a metric of 0 is 1 here, as another one of %s is" % (
                static.line.text, where))


def _check_networks(source: Network, picture: Picture) -> None:
    """In C-BGP a router's own route always wins; here a higher preference does."""
    told = _told(picture)
    above = picture.asns_above()
    for where in picture.made.routers():
        for prefix in sorted(picture.made.origins.get(where, ())):
            if picture.made.nodes[where].asn in above and told[prefix] != {where}:
                source.tell(source.nodes[where].networks[prefix], (
                    "%s is told by others, too, and AS %d prefers some routes to own ones; in C-BGP the own one always "
                    "wins at %s" % (prefix, picture.made.nodes[where].asn, where)))


def _told(picture: Picture) -> Dict[str, Set[str]]:
    """Who tells each prefix."""
    found: Dict[str, Set[str]] = {}
    for where, prefixes in picture.made.origins.items():
        for prefix in prefixes:
            found.setdefault(prefix, set()).add(where)
    for peer, _, prefix in picture.feeds:
        found.setdefault(prefix, set()).add(peer)
    return found


def _check_meds(source: Network, picture: Picture) -> None:
    """C-BGP has a missing MED as 4294967295; where routes with and without one meet, the choice may differ."""
    made = picture.made
    fed: Dict[Tuple[str, str], Set[bool]] = {}
    for (peer, router, _), words in picture.feeds.items():
        fed.setdefault((router, peer), set()).add(words.split(" ")[2] != "-")
    found: Dict[Tuple[int, int], List[Set[bool]]] = {}
    for one, other in _sessions(picture):
        if made.is_external(one, other):
            key = (made.nodes[one].asn, 0 if source.is_med_always else made.nodes[other].asn)
            found.setdefault(key, []).append(_has_med(picture, one, other, fed.get((one, other), set())))
    for (asn, neighbour), kinds in sorted(found.items()):
        if len(kinds) > 1 and len(set().union(*kinds)) > 1:
            line = next(line for both, line in picture.sessions.items()
                        if asn in (asns := {made.nodes[each].asn for each in both}) and len(asns) > 1
                        and (not neighbour or neighbour in asns))
            source.tell(line, "routes of %s come to AS %d with a MED and without; C-BGP takes a missing one for "
                              "4294967295, and here it is 0" % (
                                  "AS %d" % neighbour if neighbour else "its neighbours", asn))


def _has_med(picture: Picture, one: str, other: str, fed: Set[bool]) -> Set[bool]:
    """Whether routes that a router takes over a session have a MED, always, never or now and then; `fed` is whether
    those have one that were fed."""
    kinds: Set[bool] = set()
    for rules in (picture.made.rules.get((one, other, "in"), []), picture.made.rules.get((other, one, "out"), [])):
        here = {" med=" in rule for rule in rules if " permit" in rule}
        here |= set() if rules and rules[-1].startswith("any ") else {False}
        if here == {True}:
            return here
        kinds |= here & {True}
    return kinds | (fed if picture.made.nodes[other].is_virtual else {False})
