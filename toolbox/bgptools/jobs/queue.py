"""Requests that wait for the same workers: in turn by person, and higher ranks first."""
from __future__ import annotations

from collections import OrderedDict
from typing import Callable, Dict, Iterator, List, Optional

from ..program.mistakes import Mistake
from .limits import Limits
from .request import Busy, Request

REPLACED = "another picture was asked for"


class Queue:
    """Each person has a line of his own, whose requests are served in order; persons of a rank take turns.

    A lower rank is served once after `patience` requests of higher ones."""

    def __init__(self, limits: Limits) -> None:
        self.limits = limits
        self.ranks: "Dict[int, OrderedDict[str, List[Request]]]" = {}
        # By rank, how many requests of others were served while it waited.
        self.passed: Dict[int, int] = {}
        self.count = self.size = 0

    def __iter__(self) -> Iterator[Request]:
        return (request for persons in self.ranks.values() for line in persons.values() for request in line)

    def add(self, request: Request) -> None:
        """Adds a request behind those of the same person. A picture takes the place of one that waits, which ends with
        a Mistake. Busy where there is no room."""
        persons = self.ranks.setdefault(request.asker.rank, OrderedDict())
        line = persons.get(request.asker.person, [])
        older = next((each for each in line if each.shown is not None), None) if request.shown is not None else None
        if older is None:
            self._check(len(line), request)
            persons.setdefault(request.asker.person, line).append(request)
        else:
            line[line.index(older)] = request
            self.count -= 1
            self.size -= older.size
            older.failed(Mistake(REPLACED))
        self.count += 1
        self.size += request.size

    def _check(self, of_one: int, request: Request) -> None:
        if of_one >= self.limits.waiting_of_one:
            raise Busy("%d requests of yours wait already: wait for an answer first" % of_one)
        if self.count >= self.limits.waiting or self.size + request.size > self.limits.waiting_bytes:
            raise Busy("too many requests wait: ask again later")

    def remove(self, request: Request) -> bool:
        """Takes a request away; whether it waited."""
        persons = self.ranks.get(request.asker.rank, OrderedDict())
        line = persons.get(request.asker.person, [])
        if request not in line:
            return False
        line.remove(request)
        if not line:
            del persons[request.asker.person]
        self.count -= 1
        self.size -= request.size
        return True

    def take(self, may_begin: Callable[[Request], bool]) -> Optional[Request]:
        """The next request that may begin, which then waits no more."""
        found = {rank: request for rank in sorted(self.ranks) for request in self._first(rank, may_begin)}
        if not found:
            return None
        late = [rank for rank in found if self.passed.get(rank, 0) >= self.limits.patience]
        rank = late[0] if late else min(found)
        request = found[rank]
        self.passed = {other: self.passed.get(other, 0) + 1 for other in found if other != rank}
        persons = self.ranks[rank]
        persons.move_to_end(request.asker.person)
        self.remove(request)
        return request

    def _first(self, rank: int, may_begin: Callable[[Request], bool]) -> List[Request]:
        """The first request of a rank that may begin, if there is one: a person's first, and of the one whose turn is
        first."""
        return next(([line[0]] for line in self.ranks[rank].values() if may_begin(line[0])), [])
