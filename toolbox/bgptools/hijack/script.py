"""The network of a pair as a script: valley-free policies, and the filters of those that deploy some."""
from __future__ import annotations

from typing import FrozenSet, List

from ..importers.relationships.caida import Marking, Relations
from ..program.mistakes import Mistake
from .attack import HALVES, PREFIX
from .deployment import Deployment

# So many rules of a policy are left to the ASes that a peerlock looks for.
MOST_LOCKED = 200


def locked_ases(known: Relations) -> List[int]:
    """The ASes that no customer may have in a path: with customers, and without a provider."""
    return [asn for asn in known.asns() if known.customers[asn] and not known.providers[asn]]


class Filtering(Marking):
    """The script, with the import policies of ASes that filter. One is made for a graph, and writes parts of it.

    Origin validation knows what the victim registered, the prefix with no longer one and its own AS, and no attacker. A
    rule asks one thing, so three stand in this order: longer prefixes are denied; a path with the victim is taken; any
    other route to the prefix is denied. A path in which the victim stands before another AS would pass. None of the
    hijacks here has such a path: the victim prefers its own route to any other one to its prefix.

    A peerlock denies from customers each path with an AS that has customers and no provider."""

    def __init__(self, whole: Relations, rov: Deployment, peerlock: Deployment) -> None:
        super().__init__(whole, [])
        self.rov, self.peerlock = rov.asns, peerlock.asns
        self.locked = locked_ases(whole) if peerlock.asns else []
        self.victim = 0
        if len(self.locked) > MOST_LOCKED:
            raise Mistake("--peerlock %s: %d ASes have customers and no provider, and the rules look for at most %d" % (
                peerlock.words, len(self.locked), MOST_LOCKED))

    def lines_of(self, part: Relations, victim: int) -> List[str]:
        """The commands that make the network of a part of the graph, for a victim's prefix."""
        self.known, self.victim = part, victim
        return [line for line in self.lines() if not line.startswith("#")]

    def customer_mark(self, asn: int) -> int:
        """The community that an AS gives to routes of its customers."""
        return self._marks(asn)[0]

    def _policies(self, asn: int) -> List[str]:
        lines = super()._policies(asn)
        if asn not in self.rov and asn not in self.peerlock:
            return lines
        customers = frozenset(self.routers[other] for other in self.known.customers[asn])
        found: List[str] = []
        for line in lines:
            if " in any permit " in line:
                found += self._filters(asn, line, customers)
            found.append(line)
        return found

    def _filters(self, asn: int, line: str, customers: FrozenSet[str]) -> List[str]:
        """The rules before that which takes routes of a neighbour."""
        session, settings = line.split(" any permit ")
        found = []
        if asn in self.peerlock and session.split(" ")[2] in customers:
            found += ["path %d deny" % other for other in self.locked if other != asn]
        if asn in self.rov:
            found += ["under %s deny" % half for half in HALVES]
            found += ["path %d permit %s" % (self.victim, settings), "is %s deny" % PREFIX]
        return ["%s %s" % (session, each) for each in found]
