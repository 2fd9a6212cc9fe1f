"""All stable states of a network for one prefix: a route for each router, so that each router chooses its own among
what the choices of its neighbours advertise to it (Griffin, Shepherd and Wilfong, 2002).

`Routes` collects the routes that routers can hold, shortest path first. `Choices` are the routes that each router may
still choose: a route leaves it that no neighbour advertises any more, or that loses against one which is certainly
there. So a router may be decided before its longer routes are collected. `stable` decides what is left by trying."""
from __future__ import annotations

import heapq
from dataclasses import dataclass, field
from typing import Any, Callable, Dict, Iterator, List, Optional, Set, Tuple

from ..network.selection import Candidate, always_beats, chosen
from ..program.language import by_address
from .candidate_routes import Held, Prober, Root, preference_bound

# In the place of a route's number: no route, and any route that is not collected yet.
NONE, OPEN = -1, -2
LENGTH = 1


class CutOff(Exception):
    """A search is too large: what was counted, and how many of them are allowed."""

    def __init__(self, counted: str, most: int) -> None:
        super().__init__("%d %s" % (most, counted))
        self.counted, self.most = counted, most

    def __reduce__(self) -> Tuple[Any, ...]:
        return type(self), (self.counted, self.most)


@dataclass
class Choices:
    """The routes that each router may still choose, by their numbers."""
    of: Dict[str, Set[int]]

    def copy(self) -> "Choices":
        return Choices({router: set(numbers) for router, numbers in self.of.items()})


@dataclass
class Offered:
    """What may come to a router: numbers that are certainly there, those that may be, and the peers of whom any may."""
    certain: Set[int] = field(default_factory=set)
    possible: Set[int] = field(default_factory=set)
    open_peers: Set[str] = field(default_factory=set)
    is_decided: bool = True


class Routes:
    """The routes that routers can hold, and what each makes of its neighbours' ones."""

    def __init__(self, prober: Prober, roots: List[Root], most: int, told: Callable[[str], None]) -> None:
        self.prober, self.network, self.most, self.told = prober, prober.network, most, told
        self.held: List[Held] = []
        self.numbers: Dict[Tuple[str, Candidate], int] = {}
        self.root_of: Dict[int, Root] = {}
        self.roots: Dict[str, Set[int]] = {router: set() for router in prober.peers}
        # Of each route whose offers were asked: its number at each peer that may choose it.
        self.offers: Dict[int, Dict[str, int]] = {}
        self.heap: List[Tuple[int, int]] = []
        self.bounds = {(router, peer): preference_bound(self.network, router, peer)
                       for router, peers in prober.peers.items() for peer in peers}
        self.choices = Choices({router: {OPEN, NONE} for router in prober.peers})
        self.closed: Set[str] = set()
        for root in roots:
            candidate = prober.first(root)
            if candidate:
                number = self._number(root.router, candidate, None)
                self.root_of[number] = root
                self.roots[root.router].add(number)

    def _number(self, router: str, candidate: Candidate, before: Optional[int]) -> int:
        """The number of a route, which is a new one where it was not there."""
        key = (router, candidate)
        if key not in self.numbers:
            if len(self.held) >= self.most:
                raise CutOff("candidate routes", self.most)
            number = self.numbers[key] = len(self.held)
            self.held.append(Held(router, candidate, before))
            self.choices.of[router].add(number)
            heapq.heappush(self.heap, (candidate.values[LENGTH], number))
        return self.numbers[key]

    def candidate(self, number: int) -> Candidate:
        return self.held[number].candidate

    def collect(self) -> bool:
        """Collects all routes that some stable state may need. False where it is seen that there is no such state."""
        while self.heap:
            length = self.heap[0][0]
            if not self.narrow(self.choices, length):
                return False
            self.told("%d candidate routes .." % len(self.held))
            while self.heap and self.heap[0][0] == length:
                _, number = heapq.heappop(self.heap)
                if number in self.choices.of[self.held[number].router]:
                    self._ask(number)
        for numbers in self.choices.of.values():
            numbers.discard(OPEN)
        return self.narrow(self.choices, None)

    def _ask(self, number: int) -> None:
        """Asks what becomes of a route at the neighbours."""
        path, at = [], number  # type: List[str], int
        while True:
            path.insert(0, self.held[at].router)
            before = self.held[at].before
            if before is None:
                break
            at = before
        found = self.prober.next(self.root_of[at], path)
        # What a router that is closed gets more loses there against a route that is certainly there.
        self.offers[number] = {peer: self._number(peer, candidate, number) for peer, candidate in found.items()
                               if peer not in self.closed or (peer, candidate) in self.numbers}

    def offered(self, router: str, choices: Choices) -> Offered:
        """What may come to a router."""
        found = Offered(set(self.roots[router]), set(self.roots[router]))
        for peer in self.prober.peers[router]:
            numbers = {OPEN if number == OPEN or number not in self.offers else self.offers[number].get(router, NONE)
                       for number in choices.of[peer] if number != NONE}
            if NONE in choices.of[peer]:
                numbers.add(NONE)
            if OPEN in numbers:
                found.open_peers.add(peer)
            found.possible |= numbers - {OPEN, NONE}
            if len(numbers) == 1:
                found.certain |= numbers - {OPEN, NONE}
            found.is_decided = found.is_decided and len(numbers) == 1 and OPEN not in numbers
        return found

    def narrow(self, choices: Choices, length: Optional[int], first: Optional[str] = None) -> bool:
        """Takes away what no router can choose, where all routes with a path shorter than this are collected; or all
        are. Begins at one router, or at all. False where a router has nothing left."""
        waiting = list(choices.of) if first is None else [first, *self.prober.peers[first]]
        while waiting:
            router = waiting.pop()
            before = choices.of[router]
            choices.of[router] = after = self._left(router, choices, length)
            if not after:
                return False
            if after != before:
                waiting += [peer for peer in self.prober.peers[router] if peer not in waiting]
        return True

    def _left(self, router: str, choices: Choices, length: Optional[int]) -> Set[int]:
        """What a router may still choose."""
        numbers, offered = set(choices.of[router]), self.offered(router, choices)
        if OPEN in numbers and self._is_closed(router, offered, length):
            numbers.discard(OPEN)
            self.closed.add(router)
        if offered.certain:
            numbers.discard(NONE)
        is_always = router in self.network.med_always
        is_open = bool(offered.open_peers) and router not in self.closed
        beside = None if is_open else list(map(self.candidate, offered.possible))
        for number in numbers - {OPEN, NONE}:
            mine = self.candidate(number)
            is_supported = number in offered.possible or mine.source in offered.open_peers
            if not is_supported or any(always_beats(self.candidate(other), mine, beside, is_always)
                                       for other in offered.certain if other != number):
                numbers.discard(number)
        if offered.is_decided:
            best = chosen(map(self.candidate, offered.certain), is_always)
            numbers &= {NONE if best is None else self.numbers[router, best]}
        return numbers

    def _is_closed(self, router: str, offered: Offered, length: Optional[int]) -> bool:
        """Whether what may still come to a router loses against a route that is certainly there."""
        if not offered.open_peers:
            return True
        bound = max(self.bounds[router, peer] for peer in offered.open_peers)
        certain = (self.candidate(number).values for number in offered.certain)
        return any(-values[0] >= bound and (length is not None and values[LENGTH] < length) for values in certain)


class Search:
    """Tries the choices that are left, one router after the other."""

    def __init__(self, routes: Routes, most: int) -> None:
        self.routes, self.most = routes, most

    def stable(self) -> Iterator[Dict[str, Optional[int]]]:
        """The stable states: the number of the route that each router chooses, or nothing. CutOff if they are too many
        steps away."""
        left, steps = [self.routes.choices], 0
        while left:
            choices = left.pop()
            steps += 1
            if steps > self.most:
                raise CutOff("steps", self.most)
            router = self._undecided(choices)
            if router is None:
                numbers = {each: next(iter(found)) for each, found in choices.of.items()}
                yield {each: None if number == NONE else number for each, number in numbers.items()}
            else:
                left += self._tried(choices, router)

    def _tried(self, choices: Choices, router: str) -> List[Choices]:
        """What is left where a router chooses each of its routes, or nothing."""
        found = []
        for number in sorted(choices.of[router], reverse=True):
            tried = choices.copy()
            tried.of[router] = {number}
            if self.routes.narrow(tried, None, router):
                found.append(tried)
        return found

    def _undecided(self, choices: Choices) -> Optional[str]:
        """A router with the fewest choices that are more than one."""
        left = [(len(numbers), by_address(router), router)
                for router, numbers in choices.of.items() if len(numbers) > 1]
        return min(left)[2] if left else None
