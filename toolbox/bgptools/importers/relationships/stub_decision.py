"""What ASes outside a cone choose, from what those in it chose: one decision for each.

No route of an origin comes to such an AS from a customer. So its providers and peers decide what it chooses, and it
decides nothing for them. It is the program's decision (docs/explanation/model.md, Selection): the highest preference,
the shortest path, then the lowest address. What lies between ties here: each route has ORIGIN IGP and no MED, is
external, and each link costs 1. An AS has one router, whose address grows with its number."""
from __future__ import annotations

from typing import Collection, Dict, Iterator, List, Mapping, Optional, Tuple

from ...program.mistakes import Mistake
from .caida import CUSTOMER, PEER, PROVIDER, PREFERENCES, Relations

# An AS_PATH as the program prints it, the neighbour first; empty for a route of the AS itself.
Path = Tuple[int, ...]


def decision(known: Relations, asn: int, chosen: Mapping[int, Optional[Path]],
             leaks: Collection[int] = ()) -> Optional[Path]:
    """The path of the route that an AS chooses, where its neighbours chose these; None where it gets none.

    An AS that is missing, or has None, has no route to pass on: so leave out one whose route has NO_EXPORT. Those that
    `leak` pass all routes on."""
    best = min(_offers(known, asn, chosen, leaks), default=None)
    return best[-1] if best else None


def _offers(known: Relations, asn: int, chosen: Mapping[int, Optional[Path]],
            leaks: Collection[int]) -> Iterator[Tuple[int, int, int, Path]]:
    """What the neighbours of an AS advertise to it, as it compares them, less its loops."""
    for kind, others in ((CUSTOMER, known.customers[asn]), (PEER, known.peers[asn]), (PROVIDER, known.providers[asn])):
        for other in others:
            path = chosen.get(other)
            if path is None or asn in path:
                continue
            if kind == PROVIDER or other in leaks or not path or path[0] in known.customers[other]:
                # Prepending shows in what an AS has received, and its own number is put in front once.
                yield -PREFERENCES[kind], len(path) + 1, other, (other,) + path


def decisions(known: Relations, chosen: Mapping[int, Optional[Path]],
              leaks: Collection[int] = ()) -> Dict[int, Optional[Path]]:
    """What each AS chooses, where those of a cone chose these: `chosen` has each AS of the cone, with None for no
    route. ASes are decided behind their providers; raises Mistake where these are a loop outside of the cone."""
    found: Dict[int, Optional[Path]] = dict(chosen)
    for asn in downwards(known):
        if asn not in found:
            found[asn] = decision(known, asn, found, leaks)
    left = min(set(known.customers) - set(found), default=None)
    if left is not None:
        raise Mistake("AS %d is in a loop of providers, or below one, and cannot be decided by itself" % left)
    return found


def downwards(known: Relations) -> List[int]:
    """The ASes, each behind its providers, without those of a loop of providers and below."""
    left = {asn: len(providers) for asn, providers in known.providers.items()}
    order = [asn for asn, count in left.items() if not count]
    for asn in order:
        for customer in known.customers[asn]:
            left[customer] -= 1
            if not left[customer]:
                order.append(customer)
    return order
