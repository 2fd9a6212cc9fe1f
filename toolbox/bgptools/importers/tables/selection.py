"""Which routes of a table are taken: those of some peers, those under some prefixes, those of prefixes that are drawn.

What is left out is not held, so a table of any size is read in one pass. Which prefixes are drawn does not depend on
their order in the file, nor on how often each is there: a prefix has a rank by the seed and itself alone, and those of
the lowest ranks are taken (bottom-k sampling: A. Z. Broder, On the Resemblance and Containment of Documents, 1997)."""
from __future__ import annotations

import argparse
import heapq
from typing import Callable, Dict, Iterator, List, Optional, Set, Tuple

from ...program.language import address, contains, number, prefix
from ...program.mistakes import Mistake
from ...program.pcg import Pcg32

Prefix = Tuple[int, int]
Event = Callable[[], None]
# So many peers are named where one that is asked for is not there.
SHOWN = 8


def rank(seed: int, where: Prefix) -> int:
    """The rank of a prefix, 0 to 2^64 - 1: two numbers of `Pcg32`, whose stream is the prefix.

    It begins at two numbers of the same stream that begins at the seed, so that neighbouring prefixes are apart."""
    stream = where[0] << 6 | where[1]
    first = Pcg32(seed, stream)
    drawn = Pcg32(first.next_u32() << 32 | first.next_u32(), stream)
    return drawn.next_u32() << 32 | drawn.next_u32()


class Sample:
    """So many prefixes, drawn by lot, with what is told of each, and what is told of none."""

    def __init__(self, most: int, seed: int) -> None:
        self.most, self.seed = most, seed
        self.held: Dict[Prefix, List[Tuple[int, Event]]] = {}
        self.others: List[Tuple[int, Event]] = []
        # The ranks of those that are held, the highest first.
        self.ranks: List[Tuple[int, Prefix]] = []
        self.count = 0
        self.last: Tuple[Optional[Prefix], int] = (None, 0)

    def offer(self, where: Prefix, event: Event, is_route: bool) -> int:
        """Holds what is told of a prefix, if that is among the drawn so far. A withdrawal alone (`is_route` is false)
        draws no prefix. How much is left out for it, this or what was held."""
        self.count += 1
        before = 0
        if where not in self.held:
            before = self._draw(where) if is_route else -1
            if before < 0:
                return 1
        self.held[where].append((self.count, event))
        return before

    def hold(self, event: Event) -> None:
        """Holds what is told of no prefix."""
        self.count += 1
        self.others.append((self.count, event))

    def _draw(self, where: Prefix) -> int:
        """Draws a prefix in the place of another where its rank is lower: how much was held of that one; -1 where it
        is not drawn. Ranks that are held only sink, so that what was put out never comes in again."""
        if self.last[0] != where:
            self.last = where, rank(self.seed, where)
        own, before = self.last[1], 0
        if len(self.held) < self.most:
            heapq.heappush(self.ranks, (-own, where))
        elif own > -self.ranks[0][0]:
            return -1
        else:
            before = len(self.held.pop(heapq.heapreplace(self.ranks, (-own, where))[1]))
        self.held[where] = []
        return before

    def events(self) -> Iterator[Event]:
        """All that is held, in the order in which it came."""
        held = [each for events in self.held.values() for each in events]
        for _, event in sorted(held + self.others, key=lambda each: each[0]):
            yield event


class Selection:
    """Which peers and which prefixes are asked for. `count` is how many routes and withdrawals are not."""

    def __init__(self, peers: str, under: List[str], sample: Optional[Sample]) -> None:
        self.words: List[str] = peers.split(",") if peers else []
        self.addresses = {word for word in self.words if address(word) is not None}
        self.numbers: Set[int] = {_number(word) for word in self.words if word not in self.addresses}
        self.under = [_prefix(word) for word in under]
        self.sample = sample
        self.count = 0
        # Which words were those of a peer, and some of all peers.
        self.met: Set[str] = set()
        self.seen: Dict[str, int] = {}

    @property
    def is_any(self) -> bool:
        """Whether anything is chosen."""
        return bool(self.words or self.under or self.sample)

    def has_peer(self, who: str, asn: int) -> bool:
        """Whether the routes of a peer are taken."""
        if not self.words:
            return True
        if who not in self.seen and len(self.seen) < SHOWN + 1:
            self.seen[who] = asn
        is_one = who in self.addresses or asn in self.numbers
        if is_one and len(self.met) < len(self.words):
            self.met.update(word for word in self.words
                            if word == who or word not in self.addresses and _number(word) == asn)
        self.count += not is_one
        return is_one

    def has_prefix(self, where: Prefix) -> bool:
        """Whether routes to a prefix are taken, where no lot decides."""
        is_one = not self.under or any(contains(each, where) for each in self.under)
        self.count += not is_one
        return is_one

    def offer(self, where: Prefix, event: Event, is_route: bool = True) -> None:
        """Does what is to be done for a route or withdrawal that is taken: at once, or at the end where prefixes are
        drawn."""
        if self.sample is None:
            event()
        else:
            self.count += self.sample.offer(where, event, is_route)

    def hold(self, event: Event) -> None:
        """Does what is to be done whichever prefixes are drawn, in its place among the others."""
        if self.sample is None:
            event()
        else:
            self.sample.hold(event)

    def finish(self) -> None:
        """Does what was put off; raises Mistake where a peer that is asked for is not there."""
        for word in self.words:
            if word not in self.met:
                some = ["%s (AS %d)" % each for each in self.seen.items()]
                known = ", ".join(some[:SHOWN]) + (" and more" if len(some) > SHOWN else "")
                raise Mistake("--peers %s: no peer is that; there are %s" % (word, known or "none"))
        for event in self.sample.events() if self.sample else ():
            event()


def _number(word: str) -> int:
    """The number of `AS7` or `7`; 0 for an address."""
    found = number(word[2:] if word[:2].upper() == "AS" else word, 1)
    if found is None and address(word) is None:
        raise Mistake("--peers: `%s` is neither an address nor an AS number, as 192.0.2.1,AS64496" % word[:60])
    return found or 0


def _prefix(word: str) -> Prefix:
    found = prefix(word)
    if found is None:
        raise Mistake("--under %s: a prefix with no bit set behind its length is expected, as 10.0.0.0/8" % word[:60])
    return found


def add_words(made: argparse.ArgumentParser) -> None:
    """The words of the command line by which routes are chosen."""
    made.add_argument("--peers", default="", metavar="A,AS..", help="only these peers of the table: addresses or AS "
                      "numbers, as 192.0.2.1,AS64496")
    made.add_argument("--under", action="append", default=[], metavar="P", help="only routes to this prefix and to "
                      "longer ones inside it; may be given again")
    made.add_argument("--sample", metavar="N", help="only N of the prefixes, drawn by lot, with all their routes")
    made.add_argument("--seed", metavar="S", help="the lots of --sample: the same number gives the same prefixes (1)")


def selection_of(chosen: argparse.Namespace) -> Selection:
    """What was asked for; raises Mistake where that is no peer, prefix or number."""
    if chosen.sample is None and chosen.seed is not None:
        raise Mistake("--seed %s: there are no lots without --sample N" % chosen.seed)
    most, seed = number(chosen.sample or "1", 1), number(chosen.seed or "1")
    if most is None or seed is None:
        raise Mistake("--sample %s --seed %s: a number of at least 1, and one of 0 to 4294967295 are expected" % (
            chosen.sample, chosen.seed or "1"))
    return Selection(chosen.peers, chosen.under, None if chosen.sample is None else Sample(most, seed))
