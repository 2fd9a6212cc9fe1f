"""How much was written in the last minute, by a count for each second."""
from __future__ import annotations

from typing import List

SECONDS = 60


class Meter:
    """Counts by the second of a clock that goes on evenly. It holds so many counts as a minute has seconds."""

    def __init__(self) -> None:
        self.counts: List[int] = [0] * SECONDS
        self.second = 0

    def add(self, now: float, count: int) -> None:
        """So much more at this time."""
        self._forget(int(now))
        self.counts[self.second % SECONDS] += count

    def total(self, now: float) -> int:
        """How much came in this second and in the 59 before it."""
        self._forget(int(now))
        return sum(self.counts)

    def _forget(self, second: int) -> None:
        """Goes on to a second: what is older than a minute goes. A clock that is behind counts as the last second."""
        for each in range(self.second + 1, min(second, self.second + SECONDS) + 1):
            self.counts[each % SECONDS] = 0
        self.second = max(self.second, second)
