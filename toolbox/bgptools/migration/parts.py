"""What a network consists of, a part for each thing that one may change: a router, a link, a session, a policy, ..."""
from __future__ import annotations

from typing import Dict, Iterable, List, Tuple

from ..network.configuration import Network, ends, pair
from ..program.language import by_address, by_prefix, words_of

# A kind of KINDS, and what it is about: addresses, a prefix, the way of a policy.
Part = Tuple[str, ...]
# What virtual peers tell: for peer, router and prefix the words of `feed` behind the prefix.
Feeds = Dict[Tuple[str, str, str], str]
KINDS = ("router", "virtual", "link", "session", "cluster", "med", "client", "self", "policy", "origin", "feed")


def feeds_of(lines: Iterable[str]) -> Feeds:
    """What virtual peers still tell behind accepted lines: what came over a session that went down is gone."""
    found: Feeds = {}
    for words in map(words_of, lines):
        if words[:1] == ["feed"] and words[3] == "update":
            found[words[1], words[2], words[4]] = " ".join(words[5:])
        elif words[:1] == ["feed"]:
            found.pop((words[1], words[2], words[4]), None)
        elif words[:1] in (["stop"], ["fail"]):
            both = pair(words[1], words[2])
            found = {key: said for key, said in found.items() if pair(key[0], key[1]) != both}
    return found


def parts_of(network: Network, feeds: Feeds) -> Dict[Part, List[str]]:
    """The commands that make each part."""
    found: Dict[Part, List[str]] = {}
    for where in [*network.routers(), *network.virtuals()]:
        kind = "router" if network.is_router(where) else "virtual"
        found[kind, where] = ["%s %s %d" % (kind, where, network.nodes[where].asn)]
    for both, link in sorted(network.links.items(), key=lambda each: list(map(by_address, ends(each[0])))):
        one, other = ends(both)
        found["link", one, other] = ["link %s %s %d" % (one, other, link.metric)] + (
            [] if link.is_up else ["fail %s %s" % (one, other)])
    for one, other in network.sessions():
        found["session", one, other] = ["join %s %s" % (one, other)] + (
            [] if network.enabled[pair(one, other)] else ["stop %s %s" % (one, other)])
    found.update(_settings(network))
    for (one, other, way), rules in sorted(network.rules.items(), key=lambda each: (
            by_address(each[0][0]), by_address(each[0][1]), each[0][2])):
        found["policy", one, other, way] = ["rule %s %s %s %s" % (one, other, way, rule) for rule in rules]
    for router in network.routers():
        for where in sorted(network.origins.get(router, ()), key=by_prefix):
            found["origin", router, where] = ["origin %s %s" % (router, where)]
    for (peer, router, where), said in sorted(feeds.items()):
        found["feed", peer, router, where] = ["feed %s %s update %s %s" % (peer, router, where, said)]
    return found


def _settings(network: Network) -> Dict[Part, List[str]]:
    """The settings of routers and of ends of sessions."""
    found: Dict[Part, List[str]] = {}
    for router in network.routers():
        cluster = network.clusters.get(router, router)
        if cluster != router:
            found["cluster", router] = ["cluster %s %s" % (router, cluster)]
        if router in network.med_always:
            found["med", router] = ["med %s always" % router]
    for kind, marks in (("client", network.clients), ("self", network.selves)):
        for one, other in sorted(marks, key=lambda way: (by_address(way[0]), by_address(way[1]))):
            found[kind, one, other] = ["%s %s %s on" % (kind, one, other)]
    return found
