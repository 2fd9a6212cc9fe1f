"""What the interface for Python answers: data classes with numbers as int, and None for what is absent.

Those of one kind come as a `Table`. `replies` has the same as the program prints it, for
the tools, which print it."""
from __future__ import annotations

import html
from dataclasses import dataclass
from typing import Any, List, Optional, Tuple

from ..change.explanation import Explained, verdict, winner
from ..network.configuration import Network
from ..program import replies
from ..program.language import as_path, neighbour, path_length
from ..program.reasons import FILTER, reason_text
from .tables import Table

CHOSEN = "it is chosen"


@dataclass(frozen=True)
class Route:
    """A route to a prefix: `router` holds it, or is told it; `source` told it: a peer's address, or `self` for its own.

    `path` is written as in the language: `7,21`, `7_{21,22}`, or `-` for none. What another AS is told has no
    preference."""
    router: str
    prefix: str
    source: str
    path: str
    origin: str
    next_hop: str
    med: Optional[int]
    preference: Optional[int]
    originator: Optional[str]
    clusters: Tuple[str, ...]
    communities: Tuple[int, ...]

    @property
    def ases(self) -> Tuple[int, ...]:
        """The AS numbers of the path in order, those of a set ascending."""
        return tuple(asn for _, numbers in as_path(self.path) or [] for asn in numbers)

    @property
    def length(self) -> int:
        """The length by which paths are compared: a set counts 1."""
        return path_length(self.path)

    @property
    def neighbour(self) -> Optional[int]:
        """The neighbouring AS: the first of a path that begins with a sequence."""
        return neighbour(self.path)


def _number(text: str) -> Optional[int]:
    return None if text == "-" else int(text)


def route_of(router: str, source: str, told: replies.Route) -> Route:
    """A route that was read, of this router and source."""
    text = told.attributes
    clusters = () if text.clusters == "-" else tuple(text.clusters.split(","))
    return Route(router, told.prefix, source, text.path, text.origin, text.next, _number(text.med), _number(text.pref),
                 None if text.oid == "-" else text.oid, clusters, tuple(text.communities))


def routes_of(router: str, reply: List[str], source: str = "") -> Table[Route]:
    """The reply to `routes`; or to `in` or `out`, whose routes all come from one source."""
    found = (route_of(router, source or str(told.source), told) for told in replies.routes(reply).values())
    return Table(found, Route)


@dataclass(frozen=True)
class Reason:
    """Why a router chose a route or not: `reason` is `best` or another word of `why`, and `meaning` explains it."""
    router: str
    prefix: str
    source: str
    reason: str
    meaning: str

    @property
    def is_best(self) -> bool:
        return self.reason == "best"


def reasons_of(router: str, prefix: str, reply: List[str], is_med_always: bool) -> Table[Reason]:
    """The reply to `why` of a router that compares MED over all neighbours, or does not."""
    return Table((Reason(router, prefix, source, reason, reason_text(reason, is_med_always))
                  for source, reason in replies.reasons(reply)), Reason)


@dataclass(frozen=True)
class Explanation:
    """A route of a router with its reason, as `explain` tells it: `against` is the source of the route against which
    it lost, where it lost against one. The route is as import left it; if excluded, as received and without a cost."""
    source: str
    reason: str
    verdict: str
    against: Optional[str]
    route: Optional[Route]
    cost: Optional[int]


def explanation_of(router: str, prefix: str, one: Explained, among: List[Explained], network: Network) -> Explanation:
    """A route of the router to the prefix, among all that it has."""
    is_lost = one.reason in FILTER and one.attributes is not None
    by = winner(one, among, router in network.med_always) if is_lost else None
    read = one.attributes and replies.Route(prefix, one.source, one.attributes)
    return Explanation(one.source, one.reason, verdict(one, among, router, network), by.source if by else None,
                       route_of(router, one.source, read) if read else None, None if one.is_excluded else one.cost)


@dataclass(frozen=True)
class Delivery:
    """A message that was delivered: an `update` or a `withdraw`."""
    sender: str
    receiver: str
    kind: str
    prefix: str


def delivery_of(sender: str, receiver: str, took: str) -> Delivery:
    """The reply to `deliver`."""
    _, prefix, kind = took.split(" ")
    return Delivery(sender, receiver, kind, prefix)


@dataclass(frozen=True)
class Message:
    """A message on its way: a withdrawal has no route."""
    sender: str
    receiver: str
    kind: str
    prefix: str
    route: Optional[Route]


def message_of(sender: str, receiver: str, told: str) -> Message:
    """A line of `queue`."""
    kind, rest = told.split(" ", 1)
    if kind == "withdraw":
        return Message(sender, receiver, kind, rest, None)
    route = route_of(receiver, sender, replies.route(rest))
    return Message(sender, receiver, kind, route.prefix, route)


@dataclass(frozen=True)
class Cost:
    """The interior cost from a router to another, and the first hop."""
    router: str
    to: str
    cost: int
    first_hop: str


def cost_of(router: str, to: str, told: str) -> Optional[Cost]:
    """The reply to `cost`."""
    words = told.split(" ")
    return None if words == ["none"] else Cost(router, to, int(words[0]), words[2])


@dataclass(frozen=True)
class Converged:
    """The deliveries that emptied all queues, and their order in words. `note` is empty, or tells that the order that
    was asked for does not converge."""
    order: str
    deliveries: Tuple[Delivery, ...]
    note: str

    def to_pandas(self) -> Any:
        """The deliveries as a `pandas.DataFrame` with a type for each column, as that of a `Table`."""
        return Table(self.deliveries, Delivery).to_pandas()

    def _repr_html_(self) -> str:
        """The order, the note and the deliveries, for a notebook."""
        told = html.escape("; ".join(filter(None, (self.order, self.note))))
        return "<p>%s</p>%s" % (told, Table(self.deliveries, Delivery)._repr_html_())


# What is configured

@dataclass(frozen=True)
class Node:
    """A router or virtual peer, with its name where it has one."""
    address: str
    asn: int
    is_virtual: bool
    name: Optional[str]


@dataclass(frozen=True)
class Link:
    """A link, its lower address first."""
    one: str
    other: str
    metric: int
    is_up: bool


@dataclass(frozen=True)
class Session:
    """A session, its lower address first."""
    one: str
    other: str
    is_external: bool
    is_enabled: bool
    is_up: bool
