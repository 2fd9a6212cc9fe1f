"""Which files are BIRD routers': those that are named, or those of a folder."""
from __future__ import annotations

import os
import pathlib
from typing import List, Tuple

from ...program.mistakes import Mistake
from ..common.configuration import Told

WHOLE = "bird.conf"
SUFFIXES = (".conf", ".cfg", ".bird")


def files_of(paths: List[str]) -> Tuple[List[str], List[Told]]:
    """The files that are a router's each, and what was left out; raises Mistake where a path is not there, or a folder
    has none."""
    found: List[str] = []
    told: List[Told] = []
    for path in paths:
        if os.path.isdir(path):
            found += _files_in(pathlib.Path(path), told)
        elif os.path.exists(path):
            found.append(path)
        else:
            raise Mistake("there is no such file or folder", path)
    return list(dict.fromkeys(found)), told


def _files_in(folder: pathlib.Path, told: List[Told]) -> List[str]:
    """The files of a folder that are named as configurations; of a folder in it its bird.conf."""
    found: List[str] = []
    for path in sorted(each for each in folder.iterdir() if not each.name.startswith(".")):
        inner = path / WHOLE
        if path.is_symlink() and not path.exists():
            told.append(Told(str(path), 0, "a symbolic link that leads nowhere"))
        elif path.is_dir() and inner.is_file():
            found.append(str(inner))
        elif path.is_file() and path.suffix in SUFFIXES:
            found.append(str(path))
        elif path.suffix != ".addresses":
            told.append(Told(str(path), 0, "a folder without a bird.conf; no router is made of it" if path.is_dir() else
                             "it is not named as a configuration, `.conf`; no router is made of it", False))
    if not found:
        raise Mistake("it has no file NAME.conf; one configuration a router is expected", str(folder))
    return found


def name_of(path: str) -> str:
    """What a router is called after its file, or after the folder of its bird.conf."""
    place = pathlib.Path(path)
    return place.resolve().parent.name if place.name == WHOLE else place.stem
