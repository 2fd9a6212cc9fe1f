"""The reply to a line `converge .. echo`: each delivery as a command with its reply, and how the deliveries ended."""
from __future__ import annotations

from dataclasses import dataclass
from typing import Dict, List

# How the lines of a delivery begin. Any other line is the last one of the reply.
DELIVERED = (b"deliver ", b"took ")


@dataclass
class Echo:
    """The commands and their replies, and the last line: `converged ..`, `not converged ..`, or a refusal."""
    commands: List[str]
    replies: List[str]
    ending: str

    @classmethod
    def of(cls, text: str) -> "Echo":
        """The reply from its text. Equal lines are kept once."""
        known: Dict[str, str] = {}
        *lines, ending, _ = text.split("\n")
        kept = [known.setdefault(line, line) for line in lines]
        return cls(kept[::2], kept[1::2], ending)

    @property
    def is_converged(self) -> bool:
        """Whether no message waits."""
        return self.ending.startswith("converged ")

    @property
    def is_refused(self) -> bool:
        """Whether a delivery was refused; those before it were made."""
        return self.ending.startswith("refused ")
