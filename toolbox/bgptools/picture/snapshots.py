"""Runs of the program that are kept after steps of a script, so that what is asked about a step is answered soon."""
from __future__ import annotations

import threading
from dataclasses import dataclass, field
from typing import Dict, List, Optional

from ..convergence.run import Run
from ..program.language import is_silent, words_of
from .observation import Known

# So many runs are kept.
RUNS = 4


@dataclass
class Snapshot:
    """A run, and what it told already about its network as it is, of one prefix."""
    run: Run = field(default_factory=Run)
    known: Known = field(default_factory=Known)
    prefix: Optional[str] = None

    @property
    def step(self) -> int:
        """The step after which it is."""
        return len(self.run.lines)

    def is_at(self, lines: List[str]) -> bool:
        """Whether it goes on as these lines do, and can be asked."""
        return not self.run.program.is_torn and lines[:self.step] == self.run.lines

    def known_of(self, prefix: Optional[str]) -> Known:
        """What it told of the routes to this prefix."""
        if prefix is not None and prefix != self.prefix:
            self.prefix, self.known.routers = prefix, None
        return self.known


class Snapshots:
    """Runs after steps of one script, which may grow. `replies` are those to the lines that were given, by step."""

    def __init__(self) -> None:
        self.stands: List[Snapshot] = []
        self.lines: List[str] = []
        self.replies: Dict[int, str] = {}

    def at(self, lines: List[str], step: int) -> Snapshot:
        """A run after a step of these lines. It is the nearest one before it that there is, or a new one."""
        count = min(len(lines), len(self.lines))
        if lines[:count] != self.lines[:count]:
            self.replies = {}
        self.lines = lines
        fits = [each for each in self.stands if each.step <= step and each.is_at(lines)]
        stand = max(fits, key=lambda each: each.step, default=None) or Snapshot()
        self.stands = [each for each in self.stands if each is not stand] + [stand]
        while len(self.stands) > RUNS:
            # It takes a while until a program has ended.
            threading.Thread(target=self.stands.pop(0).run.close, daemon=True).start()
        self._forth(stand, lines[stand.step:step])
        return stand

    def _forth(self, stand: Snapshot, lines: List[str]) -> None:
        """Gives a run the lines that follow."""
        spoken = [number for number, line in enumerate(lines, stand.step + 1) if not is_silent(line)]
        self.replies.update(zip(spoken, stand.run.repeat(lines)))
        for line in lines:
            if not is_silent(line):
                stand.known.after(words_of(line), stand.run.network)

    def close(self) -> None:
        """Ends all."""
        for stand in self.stands:
            stand.run.close()
        self.stands = []
