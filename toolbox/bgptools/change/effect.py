"""What came of a change: the difference that it makes, and the messages on the way."""
from __future__ import annotations

from typing import List, Optional, Sequence

from ..convergence.delivery import Convergence
from .comparison import Difference
from .transients import Watch


class Outcome:
    """What was compared, with the deliveries that emptied the queues of the base, and those of the change. `broken` are
    the invariants that the network with the change breaks, a sentence each; those that the base kept stand first."""

    def __init__(self, difference: Difference, watch: Watch, base: Convergence, done: List[Convergence],
                 broken: Sequence[str] = ()) -> None:
        self.broken = broken
        self.difference, self.watch, self.base, self.done = difference, watch, base, done
        self.network = watch.run.network
        self.passing = watch.passing()

    @property
    def not_converged(self) -> Optional[Convergence]:
        return next((done for done in self.done if not done.is_converged), None)

    @property
    def taken(self) -> List[str]:
        return [took for done in self.done for took in done.taken]

    @property
    def is_changed(self) -> bool:
        return bool(self.difference.is_any or self.passing or self.not_converged or self.broken)
