"""The connections of a server, by what is known of them: how many each role has, and which have to go for others.

A connection is unproven until a request with a secret came over it. Of these there are few, and none for long: where
one more comes, the oldest goes. So who has no secret keeps nobody out."""
from __future__ import annotations

import asyncio
import time
from collections import Counter, OrderedDict
from dataclasses import dataclass, field
from typing import Any, Dict, Optional, Set

from tornado.iostream import IOStream

from ..session.roles import LOOKING, LOOKING_BURST, QUOTAS, UNPROVEN, UNPROVEN_SECONDS, Allowance

# What a client does not read is given up after so many seconds.
WRITE_SECONDS = 30.0


@dataclass
class Connection:
    """One connection: its stream, its number, since when it is as it is, and whether a request is being answered."""
    stream: IOStream
    number: int
    since: float = field(default_factory=time.monotonic)
    role: Optional[str] = None
    requests: int = 0
    allowance: Optional[Allowance] = None


class Connections:
    """All connections of a server. `lookers` is what all who look may ask together, `sending` counts the whole files
    that are being sent, by role, and over those of `ending` nothing more is served."""

    def __init__(self) -> None:
        self.count = 0
        self.lookers = Allowance(LOOKING, LOOKING_BURST)
        self.sending: "Counter[str]" = Counter()
        self.ending: Set[IOStream] = set()
        # The requests that were begun and not ended, each by the task that answers it.
        self.begun: "Dict[IOStream, Optional[asyncio.Task[Any]]]" = {}
        self.unproven: "OrderedDict[IOStream, Connection]" = OrderedDict()
        # Of each role, those first that did nothing for the longest time.
        self.proven: "Dict[str, OrderedDict[IOStream, Connection]]" = {role: OrderedDict() for role in QUOTAS}

    def come(self, stream: IOStream) -> None:
        """One that was accepted just now. Where too many are unproven, the oldest of them goes."""
        self.count += 1
        self.unproven[stream] = Connection(stream, self.count)
        while len(self.unproven) > UNPROVEN:
            self.unproven.popitem(last=False)[1].stream.close()

    def prove(self, stream: IOStream, role: str) -> Optional[Connection]:
        """The connection of a request that has the secret of a role, which begins now. Nothing where the role has as
        many as it may, and all of them are busy."""
        found = self.proven[role].get(stream)
        if found is None:
            found = self.unproven.pop(stream, None)
            others = self.proven[role]
            if found is None or len(others) >= QUOTAS[role].connections and not self._close_idle(role):
                return None
            found.role = role
            found.allowance = Allowance(QUOTAS[role].requests, QUOTAS[role].burst)
            others[stream] = found
        found.requests += 1
        self.proven[role].move_to_end(stream)
        return found

    def answered(self, connection: Connection) -> None:
        """A request was answered, or given up."""
        connection.requests -= 1

    def _close_idle(self, role: str) -> bool:
        """Closes the connection of a role that does nothing for the longest time; whether there is one."""
        idle = next((each for each in self.proven[role].values() if not each.requests), None)
        if idle is not None:
            self.gone(idle.stream)
            idle.stream.close()
        return idle is not None

    def gone(self, stream: IOStream) -> None:
        """One that was closed."""
        self.ending.discard(stream)
        self.begun.pop(stream, None)
        self.unproven.pop(stream, None)
        for others in self.proven.values():
            others.pop(stream, None)

    def sweep(self, now: float) -> None:
        """Closes those that were unproven for too long, and those whose request was given up by a fault."""
        for stream in [stream for stream, task in self.begun.items() if task is None or task.done()]:
            stream.close()
            self.begun.pop(stream, None)
        for each in [each for each in self.unproven.values() if now - each.since > UNPROVEN_SECONDS]:
            each.stream.close()

    def close_oldest(self) -> None:
        """Makes room where the system has no more descriptors: closes the oldest unproven one, or one that is idle."""
        if self.unproven:
            self.unproven.popitem(last=False)[1].stream.close()
        elif not any(self._close_idle(role) for role in reversed(list(self.proven))):
            return
