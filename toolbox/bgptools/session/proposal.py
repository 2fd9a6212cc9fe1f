"""A change that is proposed to all who work on a network: shown as its what-if, made when another one accepts it."""
from __future__ import annotations

from dataclasses import dataclass
from typing import FrozenSet, List

from ..program.script import Line, content_of, lines_of

MOST = 16
LONGEST_NAME = 80


@dataclass
class Proposal:
    """A proposed change: whose it is, its name, and its lines as they were given. `edits` is how many edits the network
    had when it was shown, and `text` what it does there; it is empty until that is known. `owners` are the seats of
    who proposed it, by whatever names. `is_showing` says that it is being shown again just now."""
    number: int
    seat: int
    name: str
    given: List[str]
    edits: int = 0
    text: str = ""
    owners: FrozenSet[int] = frozenset()
    is_showing: bool = False

    @property
    def lines(self) -> List[Line]:
        """Its lines with their marks."""
        return lines_of(content_of(self.given), self.name)
