"""In how many stable states several orders of delivery end."""
from __future__ import annotations

from typing import Dict, Iterator, List, Optional, Tuple

from ..convergence.delivery import Convergence
from ..convergence.orders import Order, RandomOrder, RouterByRouter
from ..convergence.run import Run, not_converged
from ..invariants.verdicts import named
from ..program.names import Names
from ..program.output import Progress
from ..program.replies import routes
from ..program.script import Line
from .finding import Finding

# The replies to `routes` of all routers.
Tables = Dict[str, List[str]]


def orders(randoms: int) -> List[Order]:
    """The fair order, router by router, and so many random ones."""
    return [Order(), RouterByRouter(), *map(RandomOrder, range(1, randoms + 1))]


def tables(run: Run) -> Tables:
    """The chosen routes of all routers."""
    routers = run.network.routers()
    return dict(zip(routers, run.ask("routes " + router for router in routers)))


class Ends:
    """In which states orders ended, each with the first order that did; how many did; and which did not end."""

    def __init__(self) -> None:
        self.states: List[Tuple[Tables, Order]] = []
        self.endless: List[Convergence] = []
        self.count, self.names = 0, Names()

    def add(self, run: Run, order: Order) -> None:
        """Converges a run in this order."""
        done = run.converge()
        self.count, self.names = self.count + 1, run.network.names
        if not done.is_converged:
            self.endless.append(done)
            return
        state = tables(run)
        if all(known != state for known, _ in self.states):
            self.states.append((state, order))


def states(lines: List[Line], script: str, most: Optional[int], asked: List[Order]) -> Iterator[Finding]:
    """A finding where these orders end in several states, and one where some do not end."""
    ends, progress = Ends(), Progress()
    for order in asked:
        progress.tell("%d of %d orders .." % (ends.count, len(asked)))
        with Run(order, most) as run:
            run.play(lines)
            ends.add(run, order)
    progress.done()
    if ends.endless:
        yield oscillation(ends.endless[0], len(ends.endless), ends.count, script, ends.names)
    if len(ends.states) > 1:
        yield _several(ends, script)


def oscillation(done: Convergence, endless: int, count: int, script: str, names: Names) -> Finding:
    """The finding of orders that do not end, by the first of them."""
    first: List[str] = next(iter(done.restless.values()), [])
    return Finding("oscillation", "%d of %d orders do not converge: %s" % (
        endless, count, not_converged(done, names).split("\n")[0]), "`converge %s`" % script, endless,
        next(iter(first), None), tuple(done.restless))


def _several(ends: Ends, script: str) -> Finding:
    """Where the first two of several states differ."""
    (one, first), (other, second) = ends.states[:2]
    router = next(each for each in one if one[each] != other[each])
    before, after = routes(one[router]), routes(other[router])
    prefixes = [to for to in {**before, **after} if before.get(to) != after.get(to)]
    text = "%d orders end in %d states: %s at %s is another %s than %s" % (
        ends.count, len(ends.states), named(prefixes), ends.names.shown(router), second.words, first.words)
    return Finding("states", text, "`converge %s --stable`" % script, len(ends.states), router, tuple(prefixes))
