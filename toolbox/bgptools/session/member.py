"""One person's connection: requests that wait, and messages that are to be sent. All of it is bounded."""
from __future__ import annotations

import asyncio
import math
import time
from collections import deque
from typing import Callable, Deque, Optional, Set, Tuple

from .messages import encoded
from .roles import QUOTAS, Allowance

# So many requests of one person are read ahead, and so many may wait for something, as for a check.
AHEAD, PENDING = 64, 4
# So many bytes of what happened are held for one who does not read.
HELD = 4 << 20
# The time that a person's requests took counts half after so many seconds.
HALF_LIFE = 5.0


class Member:
    """One who is joined, or about to be. `wake` is called when there is something to be done.

    A transport is a subclass: it takes messages from `outgoing`, and says by `is_full` that it cannot take more now."""

    def __init__(self, role: str, wake: Callable[[], None]) -> None:
        self.role, self.quota, self.wake = role, QUOTAS[role], wake
        self.seat: Optional[int] = None
        self.watches = "off"
        self.lines: Deque[bytes] = deque()
        self.outgoing: Deque[Tuple[bytes, int]] = deque()
        # The bytes of `outgoing`: those of events alone, and all.
        self.events_size = self.size = 0
        # Requests whose answers were not sent yet, and the tasks that bring some of these.
        self.owed = 0
        self.tasks: "Set[asyncio.Task[None]]" = set()
        self.has_ended = self.is_gone = self.is_ending = False
        self.why = ""
        self.allowance = Allowance(self.quota.requests, self.quota.burst)
        self._cost, self._cost_at = 0.0, 0.0

    # Requests

    def wait(self, now: float) -> Optional[float]:
        """After how many seconds its next request can be served; nothing where none can be for now."""
        if not self.lines or self.is_full or self.is_gone or len(self.tasks) >= PENDING:
            return None
        return self.allowance.wait(now)

    def take(self, now: float) -> bytes:
        """Its next request."""
        self.allowance.take(now)
        line = self.lines.popleft()
        self.taken()
        return line

    def taken(self) -> None:
        """There is room for one more request."""

    def cost(self, now: float) -> float:
        """How many seconds its requests took of late."""
        return self._cost * math.pow(2.0, (self._cost_at - max(now, self._cost_at)) / HALF_LIFE)

    def spent(self, seconds: float) -> None:
        """A request took so long."""
        now = time.monotonic()
        self._cost, self._cost_at = self.cost(now) + seconds, now

    @property
    def is_done(self) -> bool:
        """Whether it has ended what it sends, and was sent all that it asked for."""
        return self.has_ended and not (self.lines or self.owed or self.outgoing)

    # Messages

    @property
    def is_full(self) -> bool:
        """Whether no further request is served, since it does not read its answers."""
        raise NotImplementedError

    def send(self, message: bytes, is_answer: bool = False) -> None:
        """Sends a message, as soon as the transport takes it. One who does not read what happens is let go; answers do
        not count for that, since of one who does not read no further request is served."""
        if self.is_gone:
            return
        size = 0 if is_answer else len(message)
        self.outgoing.append((message, size))
        self.events_size += size
        self.size += len(message)
        self.flush()
        if self.events_size > HELD:
            self.let_go("%d bytes were waiting, and none was read" % self.events_size)

    def next_message(self) -> bytes:
        """Takes the next message for the transport."""
        message, size = self.outgoing.popleft()
        self.events_size -= size
        self.size -= len(message)
        return message

    def flush(self) -> None:
        """Gives the transport what it can take."""
        raise NotImplementedError

    def let_go(self, why: str) -> None:
        """Ends the connection, with a word on why. Where that fails it is ended by another call."""
        if not self.is_gone:
            self.is_gone, self.why = True, why
            self.lines.clear()
            self.outgoing.clear()
        if not self.is_ending:
            self.end(encoded({"event": "told", "text": "the server ended the connection: " + self.why}))
            self.is_ending = True

    @property
    def is_lost(self) -> bool:
        """Whether the transport has ended."""
        raise NotImplementedError

    def end(self, last: bytes) -> None:
        """Sends a last message where that can be done at once, and closes the transport."""
        raise NotImplementedError

    def finish(self) -> None:
        """Closes the transport when all that was sent has gone."""
        self.end(b"")
