"""Those who deliver what waits in a network that several work on: their seats, whether they deliver, and how fast."""
from __future__ import annotations

from typing import List, Optional

from ..program.language import by_address

# With a pace they deliver what is due of so many seconds at most, and wait at least so long.
BURST = 0.1


class Workers:
    """Workers, of whom each has its routers, by their addresses. Times are seconds by a clock that goes on evenly."""

    def __init__(self, seats: List[int]) -> None:
        self.seats = seats
        self.is_going = bool(seats)
        self.pace: Optional[float] = None
        self.paid = 0.0

    def seat_of(self, receiver: str) -> int:
        """The seat of the worker who delivers to a router."""
        return self.seats[by_address(receiver) % len(self.seats)]

    def room(self, now: float, most: int) -> int:
        """How many messages may be delivered now, at most so many."""
        if not self.is_going:
            return 0
        if self.pace is None:
            return most
        self.paid = max(self.paid, now - max(BURST, 1 / self.pace))
        return min(most, int((now - self.paid) * self.pace + 1e-6))

    def spent(self, count: int) -> None:
        """So many were delivered."""
        if self.pace is not None:
            self.paid += count / self.pace

    def due(self, now: float) -> Optional[float]:
        """After how many seconds the next may be delivered; nothing where they are paused."""
        if not self.is_going:
            return None
        return 0.0 if self.pace is None else max(0.0, self.paid + 1 / self.pace - now)

    def told(self) -> str:
        """What they do, in words."""
        if not self.seats:
            return "there are no workers"
        count = "1 worker" if len(self.seats) == 1 else "%d workers" % len(self.seats)
        if not self.is_going:
            return count + ", paused"
        return count + (", going" if self.pace is None else ", going at most %g a second" % self.pace)
