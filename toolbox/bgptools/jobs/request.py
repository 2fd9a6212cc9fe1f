"""Who asks, and what is asked of the workers."""
from __future__ import annotations

import asyncio
import os
from dataclasses import dataclass
from typing import Any, Dict, Optional, Sequence, Tuple, Union

from ..program.mistakes import Mistake

TEACH, WORK, LOOK = 0, 1, 2
# What a picture shows: the step, the prefix, and the way of a packet.
Shown = Tuple[int, Optional[str], Optional[Tuple[str, str]]]


@dataclass(frozen=True)
class Asker:
    """Who asks. `person` is a key that the server made, and never a participant's text; `rank` is 0 for who teaches,
    1 for who works and 2 for who looks."""
    person: str
    rank: int


class Busy(Mistake):
    """Too many requests wait: this one was not taken. The same request may be made again later."""


class Request:
    """What somebody asks of the workers.

    `job` is what a worker is told. `shown` is set for a picture alone, `version` is that of the script when it was
    asked for; `base` is the script of a what-if; `file` is a descriptor that the worker inherits, and is closed by
    `release`."""

    def __init__(self, asker: Asker, job: Dict[str, Any], size: int = 0) -> None:
        self.asker, self.job = asker, job
        # With what Python itself takes for it.
        self.size = size + 1024
        self.shown: Optional[Shown] = None
        self.version: Tuple[int, int] = (0, 0)
        self.base: Sequence[str] = ()
        self.file: Optional[int] = None
        # What came of it, also where nobody waits any more.
        self.outcome: Union[bytes, Mistake, None] = None
        self.answer: "asyncio.Future[bytes]" = asyncio.get_running_loop().create_future()

    def is_answered_by(self, other: "Request") -> bool:
        """Whether the answer to another request is one to this."""
        return self.shown is not None and self.shown == other.shown and self.version <= other.version

    def share(self, other: "Request") -> None:
        """What came of this comes of another one, too."""
        if isinstance(self.outcome, bytes):
            other.done(self.outcome)
        elif self.outcome is not None:
            other.failed(self.outcome)

    def release(self) -> None:
        """Nothing of it is needed any more."""
        self.base = ()
        if self.file is not None:
            os.close(self.file)
            self.file = None

    def done(self, answer: bytes) -> None:
        """Answers it, if somebody still waits for that."""
        self.outcome = self.outcome or answer
        if not self.answer.done():
            self.answer.set_result(answer)

    def failed(self, mistake: Mistake) -> None:
        """Says why it is not answered."""
        self.outcome = self.outcome or mistake
        if not self.answer.done():
            self.answer.set_exception(mistake)
            # Whoever asked may have gone.
            self.answer.exception()
