"""What the ASes below those that were played choose: the program's decision, for tens of thousands of ASes.

All ASes above the origins were played. So no other AS gets the route from a customer, and its peers and providers
decide what it chooses: peers before providers, then the shorter path, then the lower number. That is the program's
decision, as `importers.relationships.stub_decision` says. Here a route is one number, its length and who advertises it;
an AS gets the label of the neighbour from which it has its route, and may refuse some labels."""
from __future__ import annotations

from typing import Dict, FrozenSet, Iterable, List, NamedTuple, Sequence, Set

from ..importers.relationships.caida import Relations
from ..importers.relationships.stub_decision import downwards

# No route: it is greater than any.
NONE = 1 << 62
# The label of an AS without a route.
UNLABELLED = 0


class Offer(NamedTuple):
    """What an AS that was played advertises: its place, the length of its path, and whether peers get it, too."""
    place: int
    length: int
    is_to_all: bool


class Below:
    """The ASes of a graph without a loop of providers, in an order in which each stands behind its providers. An AS is
    its place in `asns`, so that a lower number is a lower place. Those that are `filtering` may refuse routes."""

    def __init__(self, known: Relations, filtering: FrozenSet[int] = frozenset()) -> None:
        self.asns = known.asns()
        self.place: Dict[int, int] = {asn: at for at, asn in enumerate(self.asns)}
        place = self.place
        self.filtering = {place[asn] for asn in filtering}
        self.order = [(place[asn], tuple(place[each] for each in known.providers[asn]), asn in filtering)
                      for asn in downwards(known)]
        self.peers = known.peers

    def descend(self, offers: Iterable[Offer], played: Set[int], labels: List[int], passed: Sequence[int],
                refused: FrozenSet[int] = frozenset()) -> None:
        """Labels the ASes that get a route and were not played, but for those that have a label already.

        `played` are places. `labels` has a label for each place; an AS gets `passed` of the label of the neighbour that
        it chose. ASes that filter refuse what a neighbour with a label of `refused` advertises."""
        size = len(self.asns)
        down, across = [NONE] * size, [NONE] * size
        for offer in offers:
            down[offer.place] = offer.length * size + offer.place
            if offer.is_to_all:
                self._tell_peers(offer.place, down, across, labels[offer.place] in refused)
        for here, providers, is_filtering in self.order:
            if here in played:
                continue
            best = across[here]
            if best == NONE:
                if is_filtering and refused:
                    providers = tuple(each for each in providers if labels[each] not in refused)
                for provider in providers:
                    if down[provider] < best:
                        best = down[provider]
                if best == NONE:
                    continue
            source = best % size
            down[here] = best - source + size + here
            if labels[here] == UNLABELLED:
                labels[here] = passed[labels[source]]

    def _tell_peers(self, here: int, down: List[int], across: List[int], is_refused: bool) -> None:
        """The route of an AS comes to its peers, and stays with those that have no better one of a peer."""
        for asn in self.peers[self.asns[here]]:
            peer = self.place[asn]
            if down[here] < across[peer] and not (is_refused and peer in self.filtering):
                across[peer] = down[here]
