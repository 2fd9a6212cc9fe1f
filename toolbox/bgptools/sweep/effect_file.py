"""The results of a sweep: each is kept as soon as it is known, and a run can go on."""
from __future__ import annotations

from typing import Any, Dict, Optional, Tuple

from ..program.provenance import Provenance
from ..program.record_file import RecordFile
from .effect_counts import Figures

# A part of the network, and a change.
Task = Tuple[int, int]
OTHERS = "of another script, other changes or other words"


class Results(RecordFile):
    """What is known of each task. With a path it is kept in that file."""

    def __init__(self, path: Optional[str], about: str, is_resumed: bool, program: Provenance) -> None:
        self.known: Dict[Task, Figures] = {}
        super().__init__(path, "sweep", OTHERS, about, is_resumed, program)

    def read(self, found: Dict[str, Any]) -> None:
        """Takes a result that was kept."""
        task = (found.pop("part"), found.pop("change"))
        self.known.setdefault(task, Figures(**found))

    def add(self, task: Task, figures: Figures) -> None:
        """A result. One that is known already is left as it is. One that was lost is not kept: a run that goes on tries
        it again."""
        if task not in self.known:
            self.known[task] = figures
            if not figures.is_lost:
                self.write({"part": task[0], "change": task[1], **figures.as_json()})
