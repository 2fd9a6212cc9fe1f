"""Whose configurations a folder has: FRR's or BIRD's, by the lines of its files."""
from __future__ import annotations

import pathlib
import re
from typing import List, Set

from ..importers.bird.files import WHOLE as BIRD_FILE
from ..importers.common.sources import text_of
from ..importers.frr.files import SINGLE, WHOLE
from ..program.mistakes import Mistake

KINDS = ("frr", "bird")
_FRR = re.compile(r"^(router (bgp|ospf|isis)\b|interface \S|hostname \S|frr (version|defaults)\b|route-map \S)"
                  r"[^;{]*$", re.M)
_BIRD = re.compile(r"^\s*(protocol\s+[a-z]+\b|template\s+bgp\b|router\s+id\s+[0-9.]+\s*;|filter\s+\w+\s*\{)", re.M)
INSTEAD = "write `--from frr` or `--from bird`"


def kind_of(folder: str) -> str:
    """`frr` or `bird`; raises Mistake where the files do not say, or are of both."""
    found: Set[str] = set()
    for path in _files(folder):
        found |= _kinds(path)
    if len(found) != 1:
        raise Mistake("its files have lines of %s; %s" % ("FRR and of BIRD" if found else "neither FRR nor BIRD",
                                                          INSTEAD), folder)
    return found.pop()


def _files(folder: str) -> List[pathlib.Path]:
    """The files of a folder, and of the folders in it, that are not hidden."""
    place = pathlib.Path(folder)
    inside = [each for each in sorted(place.iterdir()) if not each.name.startswith(".")]
    deeper = [each for path in inside if path.is_dir() for each in sorted(path.iterdir())]
    return [path for path in [*inside, *deeper] if path.is_file() and not path.name.startswith(".")]


def _kinds(path: pathlib.Path) -> Set[str]:
    """What a file is one of, by its name or by its lines."""
    if path.name == BIRD_FILE:
        return {"bird"}
    if path.name in SINGLE + (WHOLE,):
        return {"frr"}
    if path.suffix not in ("", ".conf", ".cfg", ".config", ".frr", ".bird"):
        return set()
    text = text_of(str(path), is_named=True)
    return {kind for kind, pattern in zip(KINDS, (_FRR, _BIRD)) if pattern.search(text)}
