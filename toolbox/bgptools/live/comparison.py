"""The chosen routes of real routers beside those of a simulated network, route by route."""
from __future__ import annotations

from dataclasses import dataclass, field
from typing import Dict, Iterable, List, NamedTuple, Optional, Tuple

from ..network.answers import Answers
from ..network.configuration import Network
from ..program import communities
from ..program.language import by_address, by_prefix
from ..program.mistakes import Mistake
from ..program.replies import Route, routes
from .bird import ABSENT
from .routes import LiveRoute


class Attribute(NamedTuple):
    """An attribute that differs: as the router has it, and as the simulated one has it."""
    name: str
    live: str
    simulated: str


class RouteDifference(NamedTuple):
    """A route that differs. `only` is `live` or `simulated` where the other one has none."""
    router: str
    prefix: str
    only: str
    attributes: List[Attribute]


class Unknown(NamedTuple):
    """What is not compared, and why; the prefix is empty for a whole router."""
    router: str
    prefix: str
    reason: str


@dataclass
class Comparison:
    """How many routes agree, and the others. `partly` are attributes that could not be compared, with how often."""
    agreed: int = 0
    differences: List[RouteDifference] = field(default_factory=list)
    unknown: List[Unknown] = field(default_factory=list)
    partly: Dict[str, int] = field(default_factory=dict)

    @property
    def is_same(self) -> bool:
        """Whether all routes agree, and none is unknown."""
        return not self.differences and not self.unknown


class Addresses:
    """Whose an address is: a router's or a virtual peer's by its name in the network, or by those of its interfaces."""

    def __init__(self, network: Network, owners: Dict[str, str]) -> None:
        self.network, self.owners = network, owners

    def of(self, address: str) -> Optional[str]:
        """Whose it is; nothing where no file says it."""
        return address if address in self.network.nodes else self.owners.get(address)


def compared(live: Dict[str, List[LiveRoute]], run: Answers, owners: Dict[str, str]) -> Comparison:
    """Compares the routers that were saved with those of a converged network."""
    found, addresses = Comparison(), Addresses(run.network, owners)
    routers: Dict[str, str] = {}
    for name in live:
        router = _router(run.network, name)
        if router is None:
            found.unknown.append(Unknown(name, "", "the network has no router of this name"))
        elif router in routers.values():
            raise Mistake("%s is the router of two files; keep one" % run.network.names.shown(router))
        else:
            routers[name] = router
    names = sorted(routers, key=lambda name: by_address(routers[name]))
    for name, reply in zip(names, run.ask("routes " + routers[name] for name in names)):
        _compare(found, routers[name], live[name], routes(reply), addresses)
    return found


def _router(network: Network, name: str) -> Optional[str]:
    """The router that a file is named after, by name or address."""
    where = network.names.address_of(name)
    return where if network.is_router(where) else None


def _compare(found: Comparison, router: str, live: List[LiveRoute], simulated: Dict[str, Route],
             addresses: Addresses) -> None:
    """Compares the routes of one router."""
    real = {route.prefix: route for route in live}
    for prefix in sorted({*real, *simulated}, key=by_prefix):
        here, there = real.get(prefix), simulated.get(prefix)
        if here is not None and there is None:
            if here.is_bgp and prefix not in addresses.network.prefixes:
                found.unknown.append(Unknown(router, prefix, "no router originates it, and no neighbour sends it"))
            elif here.is_bgp:
                found.differences.append(RouteDifference(router, prefix, "live", []))
        elif here is None:
            found.differences.append(RouteDifference(router, prefix, "simulated", []))
        elif there is not None:
            differs = _attributes(found, here, there, addresses)
            found.agreed += not differs
            found.differences += [RouteDifference(router, prefix, "", differs)] if differs else []


def _attributes(found: Comparison, here: LiveRoute, there: Route, addresses: Addresses) -> List[Attribute]:
    """The attributes that differ. Those of an own route are its router's alone."""
    source = str(there.source)
    if not here.peer or source == "self":
        return [] if not here.peer and source == "self" else [Attribute("peer", here.peer or "self", source)]
    said = there.attributes
    pairs: List[Tuple[str, Optional[str], str]] = [
        ("peer", addresses.of(here.peer), source), ("next hop", addresses.of(here.next_hop), said.next),
        ("path", here.path, said.path),
        ("MED", _med(here.med), "0" if said.med == "-" else said.med),
        ("preference", _number(here.preference), said.pref),
        ("communities", None if here.communities is None else _shown(here.communities), _shown(said.communities))]
    for name, one, _ in pairs:
        if one is None:
            found.partly[name] = found.partly.get(name, 0) + 1
    return [Attribute(name, one, other) for name, one, other in pairs if one is not None and one != other]


def _shown(numbers: Iterable[int]) -> str:
    return communities.shown_all(sorted(numbers)) or "-"


def _med(med: Optional[int]) -> Optional[str]:
    """A MED; one that is absent decides as 0 does, which FRR gives its own routes."""
    return None if med is None else str(max(med, 0))


def _number(number: Optional[int]) -> Optional[str]:
    return None if number is None else "-" if number == ABSENT else str(number)
