"""What of the shared script decides where things stand in pictures."""
from __future__ import annotations

import asyncio
from typing import Callable, List, Sequence, Tuple

from ..picture.step_view import MAKING
from ..program.language import is_silent, words_of

# So many lines are looked at before others have their turn.
PART = 1024


class Script:
    """The live list of lines, and what was counted of it.

    `count` is how many lines were looked at, and `placing` how many of these place things. `marks` are the counts of
    lines with which pictures were made after more things had come: things that come together are placed together. So
    they are the same for all workers. `places` is where things stand after so many marks, as a worker told it last, for
    those that begin late. `round` counts scripts that were not a longer one than before."""

    def __init__(self, lines: Callable[[], Sequence[str]]) -> None:
        self.lines = lines
        self.round = 0
        self._begin()

    def _begin(self) -> None:
        self.count = self.placing = self.marked = 0
        self.marks: List[int] = []
        self.places: Tuple[int, bytes] = (0, b"")

    async def count_lines(self) -> None:
        """Looks at the lines that came."""
        while True:
            lines = self.lines()
            if len(lines) < self.count:
                self.round += 1
                self._begin()
            if len(lines) == self.count:
                return
            part = lines[self.count:self.count + PART]
            self.count += len(part)
            self.placing += sum(map(_places, part))
            if self.count < len(lines):
                await asyncio.sleep(0)

    @property
    def version(self) -> Tuple[int, int]:
        """Where things stand: pictures of an equal version have all in the same places."""
        return self.round, self.placing

    def mark(self) -> None:
        """A picture is made of the lines that were looked at."""
        if self.placing > self.marked or not self.marks:
            self.marked = self.placing
            self.marks.append(self.count)


def _places(line: str) -> bool:
    """Whether a line brings something that needs a place, or a name, whose length does."""
    return is_silent(line) or words_of(line)[0] in MAKING
