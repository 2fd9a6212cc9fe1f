"""The part of an AS graph that decides what some ASes choose for the prefixes of some origins: its cone of interest.

Under valley-free export, with customers preferred to peers and these to providers, a route comes to an AS from a
customer or a peer that is above an origin, or from a provider (Gao and Rexford, 2001). So the ASes above the origins
and above the observers, with all links between them, choose what they choose in the whole graph, ties included.
docs/explanation/cone.md has the proof, and what it does not cover."""
from __future__ import annotations

from typing import Iterable, List, Optional, Set

from ...program.mistakes import Mistake
from .caida import MOST_LINKS, MOST_SESSIONS, Relations, provider_loop


def ancestors(known: Relations, asns: Iterable[int]) -> Set[int]:
    """These ASes, their providers, the providers of those, and so on; raises Mistake where one is not in the graph."""
    found: Set[int] = set()
    left = list(asns)
    for asn in left:
        if asn not in known.providers:
            raise Mistake("AS %d is not among those of the network" % asn)
    while left:
        asn = left.pop()
        if asn not in found:
            found.add(asn)
            left += known.providers[asn]
    return found


def induced(known: Relations, kept: Set[int]) -> Relations:
    """These ASes, with all relationships between them."""
    found = Relations()
    found.ties = [tie for tie in known.ties if tie[0] in kept and tie[1] in kept]
    for asn in kept:
        found.customers[asn] = known.customers[asn] & kept
        found.providers[asn] = known.providers[asn] & kept
        found.peers[asn] = known.peers[asn] & kept
    return found


def without_idle_peerings(known: Relations, above: Set[int], most: int = MOST_SESSIONS,
                          links: int = MOST_LINKS) -> Relations:
    """Without the peerings that no route of the origins crosses, at ASes that have more than so many neighbours; and
    everywhere, if there are more than so many relationships.

    `above` are the ASes above the origins: a peering is crossed from one of them alone."""
    crowded = {asn for asn in known.customers if known.degree(asn) > most or len(known.ties) > links}
    if not crowded:
        return known
    found = Relations()
    found.ties = [tie for tie in known.ties if tie[2] == -1 or tie[0] in above or tie[1] in above
                  or tie[0] not in crowded and tie[1] not in crowded]
    for asn in known.customers:
        found.customers[asn], found.providers[asn] = set(known.customers[asn]), set(known.providers[asn])
        found.peers[asn] = set()
    for one, other, kind in found.ties:
        if kind == 0:
            found.peers[one].add(other)
            found.peers[other].add(one)
    return found


def without_leaves(known: Relations, above: Set[int]) -> Relations:
    """A cone without its ASes that have no customers and are not above an origin: they decide nothing for the others,
    and can be decided afterwards."""
    return induced(known, {asn for asn, customers in known.customers.items() if customers or asn in above})


def cone(known: Relations, origins: Iterable[int], observers: Optional[Iterable[int]] = None) -> Relations:
    """The ASes above the origins and the observers, with the relationships between them.

    Each of its ASes chooses for a prefix that some of the origins originate what it chooses in the whole graph. An AS
    that leaks is named among the origins. Without observers all ASes are kept but those that have no customers and are
    no origins: these are decided afterwards (`stub_decision`). Where an AS has more than 256 neighbours, or the cone
    more than 16,384 relationships, peerings that no route of the origins crosses are left out.

    Raises Mistake where an AS is not in the graph, and where providers are a loop: then more than one stable state may
    exist, or none."""
    sources: List[int] = list(origins)
    watched = [asn for asn in known.customers if known.customers[asn]] if observers is None else list(observers)
    above = ancestors(known, sources)
    found = without_idle_peerings(induced(known, above | ancestors(known, watched)), above)
    loop = provider_loop(found)
    if loop:
        raise Mistake("AS %s, each a provider of the next one, are a loop, so that no cone is exact: write who of two "
                      "is the provider the other way, or 0 for peers" % " > ".join(map(str, loop + loop[:1])))
    return found
