"""Roles, and how much each may use: the bounds that keep one person from hurting the others.

Who looks sees; who works also calls and proposes; who teaches also shows steps to those who look, and frees names."""
from __future__ import annotations

import time
from dataclasses import dataclass
from typing import Dict, FrozenSet

from .requests import FIELDS

LOOK, WORK, TEACH = "look", "work", "teach"
ROLES = (TEACH, WORK, LOOK)
# In this order requests for pictures and what-ifs are served.
RANKS = {role: rank for rank, role in enumerate(ROLES)}
# What each role may ask, by the words of `requests`.
WORDS: Dict[str, FrozenSet[str]] = {
    TEACH: frozenset(FIELDS), WORK: frozenset(FIELDS) - {"show", "free"}, LOOK: frozenset()}


@dataclass(frozen=True)
class Quota:
    """What a role may use. `connections` and `pages` are open at once, of all with that role together; the others are
    of one person: `requests` a second on average and `burst` at once, and `log_bytes` of log written a minute."""
    connections: int
    pages: int
    requests: float
    burst: float
    log_bytes: int


QUOTAS = {TEACH: Quota(500, 100, 500, 1000, 64 << 20), WORK: Quota(1000, 200, 200, 400, 16 << 20),
          LOOK: Quota(600, 200, 20, 60, 0)}
# Connections from which no request with a secret came yet: so many at once, and for so many seconds.
UNPROVEN, UNPROVEN_SECONDS = 512, 10.0
# Requests of all who look together, a second and at once, so that they leave the server time for the others.
LOOKING, LOOKING_BURST = 300.0, 600.0
# An allowance that was taken ahead of time is made up for in so many seconds at most.
DEBT_SECONDS = 10.0


class Allowance:
    """A rate with a burst: so many a second on average, and so many at once. Times are those of `time.monotonic`."""

    def __init__(self, rate: float, burst: float) -> None:
        self.rate, self.burst, self.left = rate, burst, burst
        self.at = time.monotonic()

    def wait(self, now: float) -> float:
        """After how many seconds the next one is allowed; 0 where it is now."""
        self._refill(now)
        return 0.0 if self.left >= 1 else (1 - self.left) / self.rate

    def take(self, now: float) -> float:
        """Takes one, now or ahead of time: after how many seconds it is allowed."""
        found = self.wait(now)
        self.left = max(self.left - 1, -DEBT_SECONDS * self.rate)
        return found

    def _refill(self, now: float) -> None:
        self.left = min(self.burst, self.left + max(0.0, now - self.at) * self.rate)
        self.at = max(now, self.at)
