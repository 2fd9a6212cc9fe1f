"""A study: a graph, pairs, a kind of hijack and who filters; and the outcome of each pair."""
from __future__ import annotations

import hashlib
import json
from dataclasses import dataclass, field
from typing import List, Optional

from .. import __version__
from ..importers.relationships.caida import Relations
from .attack import LONGER, SAME
from .deployment import Deployment
from .descent import Below
from .outcome import Outcome, outcome_of
from .pairs import Pair
from .player import TooLarge, play
from .script import Filtering


@dataclass
class Study:
    """What is played. `path` and `digest` are the file of relationships and its SHA-256; `seed` is that of drawn pairs,
    None for those of a file. With `is_all` the program plays all ASes that have customers."""
    path: str
    digest: str
    known: Relations
    kind: str
    pairs: List[Pair]
    seed: Optional[int] = None
    rov: Deployment = field(default_factory=Deployment)
    peerlock: Deployment = field(default_factory=Deployment)
    is_all: bool = False

    def about(self) -> str:
        """What tells a study from others, as a digest."""
        told = [__version__, self.digest, self.kind, self.pairs, self.rov.words, self.peerlock.words, self.is_all]
        return hashlib.sha256(json.dumps(told).encode()).hexdigest()


class Laboratory:
    """Plays pairs of a study, one after another. It holds what they share, and no process."""

    def __init__(self, study: Study) -> None:
        self.study = study
        self.writer = Filtering(study.known, study.rov, study.peerlock)
        # Forged and leaked routes have the registered origin: nobody refuses them below.
        refusing = study.rov.asns if study.kind in (SAME, LONGER) else frozenset()
        self.below = Below(study.known, refusing)

    def outcome(self, number: int) -> Outcome:
        """What the hijack of the pair of this number does, counted from 0; or why it is too large to be played."""
        study, pair = self.study, self.study.pairs[number]
        try:
            played = play(study.known, self.writer, pair, study.kind, study.is_all)
        except TooLarge as mistake:
            return Outcome.failed(str(mistake))
        return outcome_of(self.below, played, pair, study.kind)
