"""A run that is held: it ends with `close`, and where it was stopped midway it is made anew."""
from __future__ import annotations

from typing import Optional

from ..convergence.run import Run
from ..program.mistakes import Mistake
from . import copies


class HeldRun:
    """Holds a run, until `close` or the end of a `with`."""

    def __init__(self, run: Run) -> None:
        self._run: Optional[Run] = run

    @property
    def run(self) -> Run:
        """The run. Where a reply was not read to its end, as Ctrl-C may do, it is another one, of what was accepted.
        Mistake where it was closed."""
        if self._run is None:
            raise Mistake("the network was closed")
        if self._run.program.is_torn:
            torn, self._run = self._run, copies.played(self._run.lines)
            torn.close()
        return self._run

    def close(self) -> None:
        """Ends the program."""
        if self._run is not None:
            self._run.close()
        self._run = None

    def __exit__(self, *_: object) -> None:
        self.close()
