"""A study by processes of this machine: each takes the next pair, until none is left."""
from __future__ import annotations

from typing import List

from ..program.process_pool import ProcessPool, Workers
from ..program.progress import Clock
from .outcome import Outcome
from .results_file import Results
from .study import Laboratory, Study


class LocalPool(ProcessPool[int]):
    """What a worker does: it plays one pair after another."""

    def __init__(self, laboratory: Laboratory) -> None:
        self.laboratory = laboratory

    def __call__(self, task: int) -> Outcome:
        return self.laboratory.outcome(task)


def play_here(study: Study, known: Results, count: int) -> None:
    """Plays what is not known, by so many processes of this machine, keeps each result as it comes, and tells how far
    it is. Raises Mistake where one worker after another dies of a pair; what is known by then is kept."""
    left: List[int] = [number for number in reversed(range(len(study.pairs))) if number not in known.known]
    if not left:
        return
    clock = Clock(len(study.pairs), len(known.known))
    # It is made once: workers have its memory.
    laboratory = Laboratory(study)
    try:
        with Workers(min(count, len(left)), lambda: LocalPool(laboratory)) as workers:
            for number, outcome in workers.results(lambda _: left.pop() if left else None):
                known.add(number, outcome)
                clock.tell()
    finally:
        clock.end()
