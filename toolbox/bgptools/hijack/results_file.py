"""The results of a study: each is kept as soon as it is known, and a run can go on."""
from __future__ import annotations

from typing import Any, Dict, Optional

from ..program.provenance import Provenance
from ..program.record_file import RecordFile
from .outcome import Outcome
from .study import Study

OTHERS = "of another graph, other pairs or other words"


class Results(RecordFile):
    """What is known of each pair, by its number from 0. With a path it is kept in that file, whose first line says what
    the study is of."""

    def __init__(self, path: Optional[str], study: Study, is_resumed: bool, program: Provenance) -> None:
        self.known: Dict[int, Outcome] = {}
        more = {"sha256": study.digest, "kind": study.kind, "pairs": len(study.pairs), "seed": study.seed,
                "rov": study.rov.words, "peerlock": study.peerlock.words}
        super().__init__(path, "hijack", OTHERS, study.about(), is_resumed, program, more)

    def read(self, found: Dict[str, Any]) -> None:
        """Takes a result that was kept."""
        self.known.setdefault(int(found["pair"]), Outcome.of_json(found))

    def add(self, number: int, outcome: Outcome) -> None:
        """A result. One that is known already is left as it is."""
        if number not in self.known:
            self.known[number] = outcome
            self.write({"pair": number, **outcome.as_json()})
