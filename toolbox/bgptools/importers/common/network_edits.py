"""The commands that make a network of another one: what an importer writes where its source changes a network."""
from __future__ import annotations

from typing import Dict, Iterator, List, Tuple

from ...network.configuration import Direction, Network, ends
from ...program.language import by_address, by_prefix
from ...program.names import mark

# What virtual peers have told: for peer, router and prefix the words of `feed` behind the prefix.
Feeds = Dict[Tuple[str, str, str], str]


def commands(before: Network, after: Network, fed: Feeds, feeds: Feeds) -> List[str]:
    """The commands by which the network before, with what was fed to it, becomes the other one.

    All nodes, links and sessions of the one before are in the other."""
    lines = [*_nodes(before, after), *_links(before, after), *_sessions(before, after)]
    for router in after.routers():
        lines += _settings(before, after, router)
    return lines + list(_policies(before, after)) + list(_origins(before, after)) + list(_feeds(after, fed, feeds))


def _nodes(before: Network, after: Network) -> Iterator[str]:
    for kind, found in (("router", after.routers()), ("virtual", after.virtuals())):
        for where in found:
            if where not in before.nodes:
                yield "%s %s %d" % (kind, where, after.nodes[where].asn)
            if after.names.of.get(where, "") != before.names.of.get(where, ""):
                yield mark(where, after.names.of[where])


def _links(before: Network, after: Network) -> Iterator[str]:
    """Links of virtual peers are written after the others, from the router's side."""
    found = [(one, other) if after.is_router(one) else (other, one) for one, other in map(ends, after.links)]
    for way in sorted(found, key=lambda way: (not after.is_router(way[1]), _in_order(way))):
        old, new = before.links.get(frozenset(way)), after.links[frozenset(way)]
        if old is None:
            yield "link %s %s %d" % (*way, new.metric)
        elif old.metric != new.metric:
            yield "metric %s %s %d" % (*way, new.metric)
        if new.is_up != (old is None or old.is_up):
            yield "%s %s %s" % ("mend" if new.is_up else "fail", *way)


def _in_order(way: Direction) -> Tuple[int, int]:
    return by_address(way[0]), by_address(way[1])


def _sessions(before: Network, after: Network) -> Iterator[str]:
    found = [(one, other) if after.is_router(one) else (other, one) for one, other in after.sessions()]
    for way in found:
        both = frozenset(way)
        if both not in before.enabled:
            yield "join %s %s" % way
        if after.enabled[both] != before.enabled.get(both, True):
            yield "%s %s %s" % ("start" if after.enabled[both] else "stop", *way)


def _settings(before: Network, after: Network, router: str) -> Iterator[str]:
    cluster = after.clusters.get(router, router)
    if cluster != before.clusters.get(router, router):
        yield "cluster %s %s" % (router, cluster)
    if (router in after.med_always) != (router in before.med_always):
        yield "med %s %s" % (router, "always" if router in after.med_always else "as")
    for word, old, new in (("client", before.clients, after.clients), ("self", before.selves, after.selves)):
        for way in sorted((way for way in old ^ new if way[0] == router), key=_in_order):
            yield "%s %s %s %s" % (word, *way, "on" if way in new else "off")


def _policies(before: Network, after: Network) -> Iterator[str]:
    """A policy that goes on as it was gets its new rules; any other is written anew."""
    keys = before.rules.keys() | after.rules.keys()
    for key in sorted(keys, key=lambda key: (_in_order((key[0], key[1])), key[2])):
        old, new = before.rules.get(key, []), after.rules.get(key, [])
        if new[:len(old)] != old:
            yield "clear %s %s %s" % key
            old = []
        for rule in new[len(old):]:
            yield "rule %s %s %s %s" % (*key, rule)


def _origins(before: Network, after: Network) -> Iterator[str]:
    for router in after.routers():
        old, new = before.origins.get(router, set()), after.origins.get(router, set())
        for where in sorted(old ^ new, key=by_prefix):
            yield "%s %s %s" % ("origin" if where in new else "noorigin", router, where)


def _feeds(network: Network, before: Feeds, after: Feeds) -> Iterator[str]:
    """What came over a session that is down now is gone with it."""
    keys = before.keys() | after.keys()
    for key in sorted(keys, key=lambda key: (_in_order((key[0], key[1])), by_prefix(key[2]))):
        peer, router, where = key
        both = frozenset((peer, router))
        if key not in after and network.enabled[both] and network.links[both].is_up:
            yield "feed %s %s withdraw %s" % key
        elif key in after and after[key] != before.get(key):
            yield "feed %s %s update %s %s" % (peer, router, where, after[key])
