"""What is kept of a shared network over an error that nobody expected, and what is said of it."""
from __future__ import annotations

from collections import Counter
from dataclasses import dataclass
from typing import Dict, List, NamedTuple, Optional

from ..program.mistakes import Mistake
from .events import Mark
from .log import Entry
from .meter import Meter
from .persistent_run import described
from .proposal import Proposal
from .proposals import People


@dataclass(frozen=True)
class Kept:
    """What stands in no log, as it was before a request: how many calls and steps there were, who was here, the
    proposals, what was told, and what the workers did."""
    calls: int
    step: int
    here: "Counter[int]"
    proposals: Dict[int, Proposal]
    count: int
    mark: Mark
    is_going: bool
    pace: Optional[float]
    paid: float
    since_edit: int


@dataclass(frozen=True)
class Broken:
    """What was being done when an error came up: the seat that was entered for the first time, the proposal that was
    made (0 for none), whether workers delivered. And what outlasts it: counts, and whose seats are one person's."""
    entering: Optional[int]
    making: int
    is_working: bool
    is_noting: bool
    meters: Dict[int, Meter]
    people: People
    count: int


class Recovered(NamedTuple):
    """How many calls the log had before the request, and has now; how many steps; and the calls that are new."""
    calls_before: int
    calls: int
    steps_before: int
    steps: int
    entries: List[Entry]


class Interrupted(Mistake):
    """An error that nobody expected came up in the midst of a request. The network is as its log has it: with the calls
    `first` to `last` of the request, which are `entries`, or with none where `last` is before `first`."""

    def __init__(self, error: BaseException, found: Recovered) -> None:
        self.first, self.last, self.entries = found.calls_before + 1, found.calls, found.entries
        super().__init__("an error came up (%s): %s" % (described(error), _done(self.first, self.last, found)))


def _done(first: int, last: int, found: Recovered) -> str:
    rest = "was done and stands in the log, and nothing else of the request"
    if last == first:
        return "call %d %s" % (first, rest)
    if last > first:
        return "what the calls %d to %d say %s" % (first, last, rest)
    if found.steps > found.steps_before:
        return "a name was given, and nothing else of the request was done"
    return "the request was not done"
