"""OLD or NEW: a script, or a folder of configurations that is converted as from-frr and from-bird do it."""
from __future__ import annotations

import os
import sys
from collections import Counter
from dataclasses import dataclass, field
from typing import List, Optional

from ..importers.bird import translation as bird
from ..importers.common.configuration import Told
from ..importers.common.network import Network
from ..importers.common.report import all_told, texts
from ..importers.common.translation import Translation
from ..importers.frr import translation as frr
from ..program.script import Line, read
from .kind import kind_of
from .parts import Part
from .sources import Source, Sources

# A filter of BIRD may have so many statements one behind the other.
DEEP = 6000


@dataclass
class Side:
    """A script, with what its conversion left out: `told` line by line, `counts` of those that decide no route."""
    path: str
    lines: List[Line]
    kind: str = "script"
    sources: Optional[Sources] = None
    told: List[Told] = field(default_factory=list)
    counts: "Counter[str]" = field(default_factory=Counter)

    def sources_of(self, part: Part) -> List[Source]:
        """The lines of the files that say a part; none where the side is a script."""
        return self.sources.of(part) if self.sources else []

    def texts(self, told: List[Told], lists_all: bool) -> List[str]:
        """What is told of this side, as its importer prints it."""
        return texts(self.sources.network, told, lists_all) if self.sources else []


def side_of(path: str, kind: Optional[str]) -> Side:
    """A side; raises Mistake where it cannot be read or converted. `kind` is `frr` or `bird`; without it the files
    say it."""
    if not os.path.isdir(path):
        return Side(path, read(path))
    kind = kind or kind_of(path)
    told: List[Told] = []
    translation = _frr(path, told) if kind == "frr" else _bird(path, told)
    name = "the script of " + path
    lines = [Line(name, number, text) for number, text in enumerate(translation.lines, 1)]
    network: Network = translation.network
    counts: "Counter[str]" = sum((config.counts for config in network.read), Counter())
    return Side(path, lines, kind, Sources(translation), all_told(network, told), counts)


def _frr(path: str, told: List[Told]) -> Translation:
    configs, left_out = frr.configs_in(path)
    told += left_out
    return frr.FrrTranslation(frr.network_of(configs, told, path))


def _bird(path: str, told: List[Told]) -> Translation:
    sys.setrecursionlimit(max(DEEP, sys.getrecursionlimit()))
    configs, left_out = bird.configs_of([path])
    told += left_out
    return bird.BirdTranslation(bird.network_of(configs, told))
