"""Which files are a router's: one file a router, or a folder a router as FRR lays them out."""
from __future__ import annotations

import pathlib
from typing import Dict, List, NamedTuple

from ...program.mistakes import Mistake
from ..common.configuration import Told

# A folder's files of one router. Where frr.conf is there, FRR reads that alone.
WHOLE = "frr.conf"
SINGLE = ("zebra.conf", "bgpd.conf", "ospfd.conf", "staticd.conf", "isisd.conf", "ripd.conf", "eigrpd.conf",
          "babeld.conf",
          "pimd.conf", "pim6d.conf", "ospf6d.conf", "ripngd.conf", "ldpd.conf", "bfdd.conf", "vrrpd.conf",
          "nhrpd.conf")
# Files of FRR that hold no configuration of a router.
BESIDE = ("daemons", "daemons.conf", "vtysh.conf", "support_bundle_commands.conf")
OTHERS = ("__pycache__",)
# Where some files are named as configurations, others are none.
SUFFIXES = ("", ".conf", ".cfg", ".config", ".frr")


class Found(NamedTuple):
    """The files of each router, by the router's name, and what was left out."""
    routers: Dict[str, List[str]]
    told: List[Told]


def routers_in(directory: str) -> Found:
    """The routers of a directory; raises Mistake where it is none, or has no file."""
    place = pathlib.Path(directory)
    if not place.is_dir():
        raise Mistake("a directory of FRR configurations is expected, one file a router", directory)
    found = Found({}, [])
    inside = sorted(path for path in place.iterdir() if not path.name.startswith(".") and path.name not in BESIDE +
                    OTHERS)
    _take_files(found, place, [path for path in inside if not path.is_dir()])
    for folder in (path for path in inside if path.is_dir()):
        _take_folder(found, folder)
    if not found.routers and not found.told:
        raise Mistake("it has no file; one configuration a router is expected", directory)
    return found


def _take_files(found: Found, place: pathlib.Path, files: List[pathlib.Path]) -> None:
    """The files of the directory itself: those that are named after daemons are one router's, each other one is a
    router."""
    named = [path for path in files if path.name in SINGLE]
    if named and WHOLE not in [path.name for path in files] or len(named) > 1:
        _take_named(found, place, {path.name: path for path in files if path.name in SINGLE + (WHOLE,)})
        files = [path for path in files if path.name not in SINGLE + (WHOLE,)]
    has_named = any(path.suffix == ".conf" for path in files) or any(path.is_dir() for path in place.iterdir())
    for path in files:
        if has_named and path.suffix not in SUFFIXES:
            found.told.append(Told(str(path), 0, "it is not named as a configuration, `.conf`; no router "
                                   "is made of it", False))
        elif _is_there(found, path):
            found.routers[str(path)] = [str(path)]


def _take_folder(found: Found, folder: pathlib.Path) -> None:
    files = {path.name: path for path in sorted(folder.iterdir()) if path.name in SINGLE + (WHOLE,)}
    if files:
        _take_named(found, folder, files)
    else:
        found.told.append(Told(str(folder), 0, "a folder with no frr.conf and no bgpd.conf or zebra.conf; no router "
                               "is made of it"))


def _take_named(found: Found, folder: pathlib.Path, files: Dict[str, pathlib.Path]) -> None:
    """The router of a folder, whose files are named after FRR's daemons."""
    chosen = [WHOLE] if WHOLE in files else [name for name in SINGLE if name in files]
    found.told.extend(Told(str(files[name]), 0, "FRR reads frr.conf, which is there, too, in its place")
                      for name in sorted(set(files) - set(chosen)))
    paths = [str(files[name]) for name in chosen if _is_there(found, files[name])]
    if paths:
        found.routers[str(folder)] = paths


def _is_there(found: Found, path: pathlib.Path) -> bool:
    if path.is_symlink() and not path.exists():
        found.told.append(Told(str(path), 0, "a symbolic link that leads nowhere"))
        return False
    if not path.is_file():
        found.told.append(Told(str(path), 0, "it is no file"))
        return False
    return True
