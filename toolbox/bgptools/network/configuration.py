"""What is configured, kept from the lines that the program accepted. It holds no route: those the program alone decides."""
from __future__ import annotations

from dataclasses import dataclass, replace
from typing import Callable, Dict, FrozenSet, List, Optional, Set, Tuple

from ..program.language import address, by_address, readable
from ..program.language_table import FORMS
from ..program.mistakes import Mistake
from ..program.names import Names, mark

Pair = FrozenSet[str]
Direction = Tuple[str, str]


def pair(one: str, other: str) -> Pair:
    """Two ends, in no order."""
    return frozenset((one, other))


def ends(both: Pair) -> List[str]:
    """The ends in order of address."""
    return sorted(both, key=by_address)


@dataclass(frozen=True)
class Node:
    """A router or virtual peer."""
    asn: int
    is_virtual: bool


@dataclass(frozen=True)
class Link:
    """A link."""
    metric: int
    is_up: bool = True


class Network:
    """Routers, links, sessions and settings."""

    def __init__(self) -> None:
        self.nodes: Dict[str, Node] = {}
        self.links: Dict[Pair, Link] = {}
        self.enabled: Dict[Pair, bool] = {}
        self.peers: Dict[str, Set[str]] = {}
        self.clients: Set[Direction] = set()
        self.selves: Set[Direction] = set()
        self.clusters: Dict[str, str] = {}
        # The routers that compare MED whatever the neighbouring AS.
        self.med_always: Set[str] = set()
        self.rules: Dict[Tuple[str, str, str], List[str]] = {}
        self.origins: Dict[str, Set[str]] = {}
        self.prefixes: Set[str] = set()
        # Those that were fed, that rules add and that they match.
        self.communities: Set[int] = set()
        self.names = Names()

    def copy(self) -> "Network":
        """Another one with the same configuration."""
        made = Network()
        made.nodes, made.links, made.enabled = dict(self.nodes), dict(self.links), dict(self.enabled)
        made.peers = {router: set(peers) for router, peers in self.peers.items()}
        made.clients, made.selves, made.med_always = set(self.clients), set(self.selves), set(self.med_always)
        made.clusters = dict(self.clusters)
        made.rules = {place: list(rules) for place, rules in self.rules.items()}
        made.origins = {router: set(own) for router, own in self.origins.items()}
        made.prefixes, made.communities = set(self.prefixes), set(self.communities)
        made.names.of = dict(self.names.of)
        return made

    def routers(self) -> List[str]:
        """The routers in order of address."""
        return sorted((a for a, node in self.nodes.items() if not node.is_virtual), key=by_address)

    def virtuals(self) -> List[str]:
        """The virtual peers in order of address."""
        return sorted((a for a, node in self.nodes.items() if node.is_virtual), key=by_address)

    def is_router(self, where: str) -> bool:
        return where in self.nodes and not self.nodes[where].is_virtual

    def is_external(self, one: str, other: str) -> bool:
        """Whether two are in different ASes."""
        return self.nodes[one].asn != self.nodes[other].asn

    def sessions(self) -> List[Direction]:
        """The sessions, each once, in order."""
        return sorted(((a, b) for a, b in map(ends, self.enabled)), key=lambda both: (by_address(both[0]), by_address(both[1])))

    def directions(self, senders: Optional[Set[str]] = None) -> List[Direction]:
        """Each way of each session by which a router sends: of all routers, or of these."""
        found = self.peers if senders is None else senders
        return [(a, b) for a in found if self.is_router(a) for b in self.peers.get(a, ())]

    def take(self, words: List[str]) -> None:
        """Makes an edit or a feed that the program has accepted."""
        _TAKES.get(words[0], lambda *_: None)(self, words)

    def naming(self, where: str, name: str) -> str:
        """The comment that gives a router or virtual peer a name, as the bytes of a script. Mistake where it may not have that."""
        shown = readable(name)
        if where not in self.nodes:
            raise Mistake("there is no router or virtual peer %s" % readable(where))
        if address(name) is not None:
            raise Mistake("%s is an address, and is never taken for a name" % name)
        others = [other for other, known in self.names.of.items() if known == shown and other != where]
        if others:
            raise Mistake("the name %s is that of %s" % (shown, others[0]))
        return mark(where, name)

    def may_send(self, words: List[str]) -> Optional[Set[str]]:
        """The routers of which an accepted edit may have sent something; nothing where that is any.

        A setting and an origin concern their router alone, a session its two ends, and a link the two ASes at its ends, since costs are
        counted inside an AS."""
        scope = _SCOPES.get(words[0], "")
        if scope == "nobody":
            return set()
        if scope == "ases":
            asns = {self.nodes[words[1]].asn, self.nodes[words[2]].asn}
            return {a for a, node in self.nodes.items() if node.asn in asns}
        return set(words[1:3]) if scope == "ends" else {words[1]}


# Whose routes an edit can change.
_SCOPES = {form.name: form.scope for form in FORMS}


def _node(network: Network, words: List[str]) -> None:
    network.nodes[words[1]] = Node(int(words[2]), words[0] == "virtual")


def _link(network: Network, words: List[str]) -> None:
    key = pair(words[1], words[2])
    if words[0] == "link":
        network.links[key] = Link(int(words[3]))
    elif words[0] == "metric":
        network.links[key] = replace(network.links[key], metric=int(words[3]))
    else:
        network.links[key] = replace(network.links[key], is_up=words[0] == "mend")


def _session(network: Network, words: List[str]) -> None:
    one, other = words[1:3]
    network.enabled[pair(one, other)] = words[0] != "stop"
    network.peers.setdefault(one, set()).add(other)
    network.peers.setdefault(other, set()).add(one)


def _switch(network: Network, words: List[str]) -> None:
    marks = network.clients if words[0] == "client" else network.selves
    (marks.add if words[3] == "on" else marks.discard)((words[1], words[2]))


def _policy(network: Network, words: List[str]) -> None:
    key = (words[1], words[2], words[3])
    if words[0] == "clear":
        network.rules.pop(key, None)
    else:
        network.rules.setdefault(key, []).append(" ".join(words[4:]))
        network.communities.update(int(word[len("add="):]) for word in words[5:] if word.startswith("add="))
        network.communities.update([int(words[5])] if words[4] == "comm" else [])


def _origin(network: Network, words: List[str]) -> None:
    own = network.origins.setdefault(words[1], set())
    (own.add if words[0] == "origin" else own.discard)(words[2])
    network.prefixes.add(words[2])


def _cluster(network: Network, words: List[str]) -> None:
    network.clusters[words[1]] = words[2]


def _med(network: Network, words: List[str]) -> None:
    (network.med_always.add if words[2] == "always" else network.med_always.discard)(words[1])


def _feed(network: Network, words: List[str]) -> None:
    network.prefixes.add(words[4])
    network.communities.update(map(int, words[8][len("comm="):].split(",")) if len(words) > 8 else [])


_TAKES: Dict[str, Callable[[Network, List[str]], None]] = {
    "router": _node, "virtual": _node, "link": _link, "metric": _link, "fail": _link, "mend": _link, "join": _session, "stop": _session,
    "start": _session, "client": _switch, "self": _switch, "rule": _policy, "clear": _policy, "origin": _origin, "noorigin": _origin,
    "cluster": _cluster, "med": _med, "feed": _feed}
