"""What a router may tell whom, reckoned from its sessions and policies: so no queue is tried, and no router asked, in vain."""
from __future__ import annotations

import functools
from typing import Collection, Dict, Iterable, List, Optional, Set, Tuple

from ..program.communities import withholding
from ..program.language import as_path, contains, neighbour, prefix
from ..program.replies import best
from .configuration import Network


@functools.lru_cache(maxsize=65536)
def _read(rule: str) -> Tuple[str, str, bool]:
    """A rule's match, its value, and whether it permits."""
    words = rule.split(" ")
    return words[0], "" if words[0] == "any" else words[1], "permit" in words


def _is_about(match: str, value: str, to: str) -> bool:
    """Whether a match by prefix, or by nothing, holds of a prefix."""
    if match == "under":
        outer, inner = prefix(value), prefix(to)
        return bool(outer and inner and contains(outer, inner))
    return match == "any" or match == "is" and value == to


def _meets(match: str, value: str, to: str, path: str, carried: Collection[int]) -> bool:
    if match == "path":
        return any(int(value) in numbers for _, numbers in as_path(path) or [])
    if match == "comm":
        return int(value) in carried
    return int(value) == neighbour(path) if match == "first" else _is_about(match, value, to)


def deciding(rules: List[str], to: str, path: str, carried: Collection[int]) -> Optional[int]:
    """The rule of a policy, counted from 0, that decides about a route with these communities: the first to match."""
    read = enumerate(map(_read, rules))
    return next((at for at, (match, value, _) in read if _meets(match, value, to, path, carried)), None)


def permits(rules: List[str], to: str, path: str, carried: Collection[int] = ()) -> bool:
    """Whether a policy lets a route pass: by the first rule that matches, or where none does."""
    at = deciding(rules, to, path, carried)
    return at is None or _read(rules[at])[2]


def may_permit(rules: List[str], to: str, asns: Set[int], has_inner: bool) -> bool:
    """Whether a policy may let a route pass that comes from one of these ASes, the first of its path, or from inside.

    What it carries is not known: each community that a rule matches it may carry or not."""
    left = set(asns)
    for match, value, is_permit in map(_read, rules):
        if match in ("first", "path"):
            asn = int(value)
            if is_permit and (has_inner or asn in left or match == "path" and left):
                return True
            left.discard(asn)
        elif match == "comm" and is_permit and (has_inner or left):
            return True
        elif _is_about(match, value, to):
            return is_permit and (has_inner or bool(left))
    return has_inner or bool(left)


def is_open(network: Network, router: str, peer: str) -> bool:
    """Whether routes pass through the router between this peer and any other: it is in another AS, or a client."""
    return network.is_external(router, peer) or (router, peer) in network.clients


def tells(network: Network, router: str, peer: str, reply: str) -> bool:
    """Whether a router tells a peer of the route that it chose, as `best` replies it."""
    route = best([reply])
    if route is None or route.source is None or route.source == peer:
        return False
    if route.source != "self" and not is_open(network, router, route.source) and not is_open(network, router, peer):
        return False
    carried = route.attributes.communities
    if withholding(carried, network.is_external(router, peer)):
        return False
    return permits(network.rules.get((router, peer, "out"), []), route.prefix, route.attributes.path, carried)


class Advertisements:
    """What routers may tell; kept until they are edited."""

    def __init__(self, network: Network) -> None:
        self.network = network
        self.kept: Dict[str, Dict[str, List[str]]] = {}
        self.by_prefix: Dict[str, bool] = {}

    def forget(self, routers: Iterable[str]) -> None:
        """Routers were edited."""
        for router in routers:
            self.kept.pop(router, None)
            self.by_prefix.pop(router, None)

    def peers(self, router: str, to: str) -> List[str]:
        """The peers that a router may tell a route to the prefix, its own or another peer's."""
        kept = self.kept.setdefault(router, {})
        key = to if to in self.network.origins.get(router, ()) or self._has_prefixes(router) else ""
        if key not in kept:
            kept[key] = [peer for peer in self.network.peers.get(router, ()) if self._may_tell(router, peer, to)]
        return kept[key]

    def _has_prefixes(self, router: str) -> bool:
        """Whether a policy of the router matches by prefix."""
        if router not in self.by_prefix:
            rules = (rule for peer in self.network.peers.get(router, ()) for rule in self.network.rules.get((router, peer, "out"), ()))
            self.by_prefix[router] = any(_read(rule)[0] in ("is", "under") for rule in rules)
        return self.by_prefix[router]

    def _may_tell(self, router: str, peer: str, to: str) -> bool:
        network = self.network
        rules = network.rules.get((router, peer, "out"), [])
        if to in network.origins.get(router, ()) and permits(rules, to, "-"):
            return True
        sources = [other for other in network.peers[router] if other != peer and (is_open(network, router, peer) or is_open(network, router, other))]
        outer = {network.nodes[other].asn for other in sources if network.is_external(router, other)}
        return may_permit(rules, to, outer, any(not network.is_external(router, other) for other in sources))
