"""Deliveries on a shared network: by its workers, each of whom has routers of his own, and by hand."""
from __future__ import annotations

import contextlib
from collections import Counter
from typing import Any, Callable, Dict, List, Optional, Tuple

from ..convergence.delivery import MEMORY
from ..convergence.orders import in_order
from ..network.configuration import Direction
from ..program.mistakes import Mistake
from ..program.replies import refusal
from .commands import Commands
from .events import Events
from .log import Entry, Unkept
from .persistent_run import Lost
from .workers import Workers

# So many messages are delivered at once.
PART = 32
LIMIT = 10000
LONGEST = "deliver 255.255.255.255 255.255.255.255"


class Deliveries:
    """Delivers what waits, one message of each queue in turn. Times are seconds by a clock that goes on evenly."""

    def __init__(self, calling: Commands, workers: Workers, happening: Events) -> None:
        self.program, self.ledger, self.fault = calling.program, calling.ledger, calling.fault
        self.workers, self.happening = workers, happening
        self.round: List[Direction] = []
        # Whether workers deliver just now.
        self.is_working = False
        self.program.renewed = self.round.clear

    # By workers

    def work(self, now: float) -> int:
        """What workers do in one go, at this time: how many messages they took, or looked for where none is."""
        self.is_working = True
        full = self.fault(LONGEST)
        if full and self.workers.is_going:
            self.pause_for(full)
        room = self.workers.room(now, PART)
        try:
            tried, entries = self._deliver(room, self.workers.seat_of) if room else (0, [])
        except Unkept:
            raise
        except Mistake as mistake:
            self.pause_for(str(mistake))
            tried, entries = 0, []
        self.workers.spent(len(entries))
        # The limit is never lower, and takes a while to count.
        count, most = self.ledger.since_edit, self.program.most
        if count >= (LIMIT if most is None else most) and count >= self.program.deliverer.limit():
            self.pause_for("after %d deliveries without an edit it is not quiet" % count)
        self.is_working = False
        return tried

    def due(self, now: float) -> Optional[float]:
        """After how many seconds `work` has something to do; nothing where it has not before something is done."""
        deliverer = self.program.deliverer
        waits = bool(self.round or deliverer.waiting.most or deliverer.is_unsure)
        return self.workers.due(now) if waits else None

    def steps(self, seat: int, count: int) -> List[Entry]:
        """Somebody lets the workers deliver so many messages, and pauses them. Mistake where there are none."""
        self._check_workers()
        self._check_room()
        self.workers.is_going = False
        found: List[Entry] = []
        tried = 1
        while tried and len(found) < count and not self.fault(LONGEST):
            tried, entries = self._deliver(min(PART, count - len(found)), self.workers.seat_of)
            found += entries
        self._tell(seat, "lets the workers deliver %d, and pauses them" % len(found))
        return found

    def pause(self, seat: int) -> None:
        """The workers deliver nothing more."""
        self._check_workers()
        self.workers.is_going = False
        self._tell(seat, "pauses the workers")

    def go(self, seat: int) -> None:
        """The workers deliver again. Mistake where there are none, or nothing can be delivered any more."""
        self._check_workers()
        self._check_room()
        self.workers.is_going, self.ledger.since_edit = True, 0
        self._tell(seat, "lets the workers go")

    def pace(self, seat: int, a_second: Optional[float]) -> None:
        """The workers deliver so many messages a second at most; nothing stands for as many as they can."""
        self._check_workers()
        if a_second is not None and not 0.001 <= a_second <= 1000000:
            raise Mistake("a pace is 0.001 to 1000000 messages a second")
        self.workers.pace = a_second
        self._tell(seat, "sets the pace: %s" % self.workers.told())

    def now(self) -> Dict[str, Any]:
        """What the workers do."""
        delivered = sum(self.ledger.made[seat] for seat in self.workers.seats)
        return {"count": len(self.workers.seats), "is_going": self.workers.is_going, "pace": self.workers.pace,
                "calls": delivered, "text": self.workers.told()}

    def _tell(self, seat: int, text: str) -> None:
        self.happening.tell("workers", "%s %s" % (self.ledger.seats.name_of(seat), text), self.now())

    def pause_for(self, why: str) -> None:
        """The workers deliver nothing more, and all are told why."""
        self.workers.is_going, self.ledger.since_edit = False, 0
        self.happening.tell("workers", "the workers pause: %s" % why, self.now())

    def _check_workers(self) -> None:
        if not self.workers.seats:
            raise Mistake("there are no workers: `next` and `converge` deliver by hand")

    # By hand

    def next(self, seat: int) -> Optional[Entry]:
        """Somebody delivers the next waiting message by hand; nothing where none waits."""
        self._check_room()
        tried, entries = self._deliver(1, lambda _: seat)
        while tried and not entries:
            tried, entries = self._deliver(1, lambda _: seat)
        return entries[0] if entries else None

    def _check_room(self) -> None:
        full = self.fault(LONGEST)
        if full:
            raise Mistake(full)

    # All of them

    def _deliver(self, most: int, seat_of: Callable[[str], int]) -> Tuple[int, List[Entry]]:
        """Delivers at most so many messages, one of each queue in turn: how many queues were tried, and what was
        delivered. Mistake where memory was refused, when the others are delivered."""
        with self.program.renewing():
            if not self.round and self.program.deliverer.is_waiting():
                self.round += in_order(self.program.deliverer.waiting.most)[::-1]
        ways = [self.round.pop() for _ in range(min(most, len(self.round)))]
        deliverer = self.program.deliverer
        entries: List[Entry] = []
        cells: "Counter[Tuple[str, str]]" = Counter()
        wanting = ""
        for way, reply in zip(ways, self.program.asked(["deliver %s %s" % way for way in ways])):
            if refusal(reply) == MEMORY:
                wanting = "deliver %s %s: %s: memory was refused" % (*way, reply[0])
            elif refusal(reply):
                deliverer.waiting.emptied(way)
            else:
                entries.append(Entry(seat_of(way[1]), "deliver %s %s" % way, reply))
                deliverer.waiting.took(way)
                cells[way[1], reply[0].split(" ")[1]] += 1
        self._delivered(entries, cells)
        if wanting:
            raise Mistake(wanting)
        return len(ways), entries

    def _delivered(self, entries: List[Entry], cells: "Counter[Tuple[str, str]]") -> None:
        """Keeps what was delivered, and learns what may have been sent for it."""
        self.ledger.keep(entries)
        for entry in entries:
            self.ledger.take(entry)
        deliverer = self.program.deliverer
        deliverer.is_unsure = deliverer.is_unsure or bool(cells)
        with contextlib.suppress(Lost), self.program.renewing():
            deliverer.learn(cells)
