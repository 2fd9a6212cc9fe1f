"""Deliveries by which a network reaches a stable state: the program makes them, and is asked where they led.

In the guided order each router first gets the route that it chooses in the state, from the origin outwards. So it
has chosen that before it hears of others. Then each router takes all that waits for it, the lowest MED first, so that
no route is there without the one that drops it by MED. Where that does not end in the state, random orders may."""
from __future__ import annotations

from dataclasses import dataclass, field
from typing import Dict, Iterable, List, Optional, Tuple

from ..network.configuration import Direction
from ..network.selection import MED, Candidate
from ..program.language import by_address, words_of
from ..program.replies import Route, best
from ..program.script import Line
from .orders import NAMES, named
from .run import Run

# So often each router takes what waits for it, and so many random orders are tried.
ROUNDS, RANDOM = 20, 20
RANDOM_ORDER = NAMES[-1]


@dataclass
class State:
    """The route that each router chooses, or nothing; and each route that a router gets in this state, by sender and
    receiver. `deliveries` bring the network there, if such were found."""
    chosen: Dict[str, Optional[Candidate]]
    received: Dict[Direction, Candidate]
    deliveries: Optional[List[Direction]] = field(default=None)

    def routes(self, prefix: str) -> Dict[Tuple[str, str], Route]:
        """The chosen routes, by router and prefix."""
        return {(router, prefix): Route(prefix, each.source, each.attributes)
                for router, each in self.chosen.items() if each}

    def outwards(self) -> List[str]:
        """The routers, each behind the one that its route came from."""
        found: List[str] = []
        for router in self.chosen:
            way = []  # type: List[str]
            at: Optional[str] = router
            while at is not None and at not in found:
                way.append(at)
                each = self.chosen.get(at)
                at = each.source if each and each.source in self.chosen else None
            found += reversed(way)
        return found

    def is_reached(self, run: Run, prefix: str) -> bool:
        """Whether no message waits, and each router chose its route of this state."""
        routers = list(self.chosen)
        replies = run.ask(["quiet"] + ["best %s %s" % (router, prefix) for router in routers])
        now = {(router, prefix): route for router, route in zip(routers, map(best, replies[1:])) if route}
        return replies[0] == ["yes"] and now == self.routes(prefix)


class Guide:
    """Delivers in the guided order."""

    def __init__(self, run: Run, state: State) -> None:
        self.run, self.state, self.most = run, state, _limit(run)
        self.deliveries: List[Direction] = []

    def deliver(self) -> None:
        """Delivers until no message waits, or until the limit: where routes come and go in turns, ever more wait."""
        order = self.state.outwards()
        for router in order:
            each = self.state.chosen[router]
            if each and each.source != "self":
                self._empty((each.source, router))
        for _ in range(ROUNDS):
            waiting = self._waiting()
            if not waiting or len(self.deliveries) >= self.most:
                return
            for router in order + sorted({way[1] for way in waiting} - set(order), key=by_address):
                for way in sorted((way for way in self._waiting() if way[1] == router), key=self._place):
                    self._empty(way)

    def _place(self, way: Direction) -> Tuple[bool, int, int]:
        """Where a direction to a router stands among all: that of the chosen route first, then by MED."""
        each = self.state.chosen.get(way[1])
        received = self.state.received.get(way)
        med = received.values[MED] if received else 0
        return each is None or each.source != way[0], med, by_address(way[0])

    def _waiting(self) -> List[Direction]:
        return self.run.program.waiting()

    def _empty(self, way: Direction) -> None:
        """Delivers all that waits in a direction."""
        count = len(self.run.ask(["queue %s %s" % way])[0]) - 1
        count = min(count, self.most - len(self.deliveries))
        for _ in range(count):
            self.run.say("deliver %s %s" % way)
        self.deliveries += [way] * count


def _limit(run: Run) -> int:
    """How many deliveries are made at most."""
    return 2000 + 4 * len(run.network.directions())


def reach(lines: List[Line], prefix: str, states: List[State]) -> None:
    """Looks for deliveries to each of these states from the end of a script without deliveries."""
    for state in states:
        with Run() as run:
            run.play(lines)
            guide = Guide(run, state)
            guide.deliver()
            state.deliveries = guide.deliveries if state.is_reached(run, prefix) else None
    for seed in range(1, RANDOM + 1):
        if all(state.deliveries is not None for state in states):
            return
        _reach_by_chance(lines, prefix, states, seed)


def _reach_by_chance(lines: List[Line], prefix: str, states: List[State], seed: int) -> None:
    """Notes which of the states a random order ends in."""
    with Run(named(RANDOM_ORDER, seed)) as run:
        run.play(lines)
        run.follow(run.order, _limit(run), False)
        before = len(run.lines)
        if not run.converge().is_converged:
            return
        found = next((state for state in states if state.is_reached(run, prefix)), None)
        if found and found.deliveries is None:
            found.deliveries = _ways(run.lines[before:])


def _ways(lines: Iterable[str]) -> List[Direction]:
    """The directions of deliveries."""
    return [(words[1], words[2]) for words in map(words_of, lines)]
