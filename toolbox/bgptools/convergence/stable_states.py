"""The stable states of a network: in which ones random orders of delivery end, and how often."""
from __future__ import annotations

from dataclasses import dataclass, field
from typing import Dict, List, Optional, Tuple

from ..program.language import by_address, by_prefix
from ..program.names import Names
from ..program.output import Progress
from ..program.replies import Route, route_text, routes
from ..program.script import Line
from .delivery import Convergence
from .delivery_script import converged
from .orders import RandomOrder
from .run import Run, not_converged

Cell = Tuple[str, str]


@dataclass
class State:
    """The chosen routes of all routers, by router and prefix, with the numbers of the orders that ended so."""
    routes: Dict[Cell, Route]
    seeds: List[int] = field(default_factory=list)


@dataclass
class Found:
    """The states, those that were seen most often first; and the orders that did not end, by their numbers."""
    states: List[State] = field(default_factory=list)
    endless: Dict[int, Convergence] = field(default_factory=dict)
    names: Names = field(default_factory=Names)

    @property
    def count(self) -> int:
        return len(self.endless) + sum(len(state.seeds) for state in self.states)

    def add(self, now: Dict[Cell, Route], seed: int) -> None:
        """One more order ended so."""
        known = next((state for state in self.states if state.routes == now), None)
        if known is None:
            known = State(now)
            self.states.append(known)
        known.seeds.append(seed)

    def differing(self) -> List[Cell]:
        """Where the states differ: routers with prefixes, in order."""
        cells = {cell for state in self.states for cell in state.routes}
        found = [cell for cell in cells if len({state.routes.get(cell) for state in self.states}) > 1]
        return sorted(found, key=lambda cell: (by_prefix(cell[1]), by_address(cell[0])))


def _routes(run: Run) -> Dict[Cell, Route]:
    routers = run.network.routers()
    return {(router, prefix): route for router, reply in zip(routers, run.ask("routes " + router for router in routers))
            for prefix, route in routes(reply).items()}


def look_for(lines: List[Line], count: int, is_at_end: bool, most: Optional[int]) -> Found:
    """The stable states that so many random orders end in. Where no limit is given, an order may take ten thousand
    deliveries and more."""
    found, progress = Found(), Progress()
    for seed in range(1, count + 1):
        with Run(RandomOrder(seed), most) as run:
            _, endless = converged(run, lines, is_at_end)
            if endless:
                found.endless[seed] = endless
            else:
                found.add(_routes(run), seed)
            found.names = run.network.names
        progress.tell("%d of %d orders .." % (seed, count))
    progress.done()
    found.states.sort(key=lambda state: (-len(state.seeds), state.seeds))
    return found


def _state(found: Found, at: int) -> List[str]:
    """A state: how often it was seen, and the routes by which it differs from the others."""
    state, lines = found.states[at], []
    for router, prefix in found.differing():
        route = state.routes.get((router, prefix))
        told = route_text(route, found.names) if route else "no route"
        lines.append("  %s at %s: %s" % (prefix, found.names.shown(router), told))
    seen = (at + 1, len(state.seeds), found.count, state.seeds[0])
    return ["State %d: in %d of %d, as with --seed %d" % seen] + lines


def text_of(found: Found) -> str:
    """What was found, for a reader."""
    count = len(found.states)
    ends = ["" if number == 1 else "s" for number in (count, found.count)]
    lines = ["%d stable state%s in %d random order%s" % (count, ends[0], found.count, ends[1])]
    lines += [line for at in range(count) for line in _state(found, at)] if count > 1 else []
    if found.endless:
        seed, done = next(iter(found.endless.items()))
        lines.append("%d of %d did not converge, as with --seed %d: %s" % (
            len(found.endless), found.count, seed, not_converged(done, found.names)))
    return "\n".join(lines) + "\n"
