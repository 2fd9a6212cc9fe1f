"""The libraries that the gate of the kit (`rt ci`) proved, given to a copy of a crate, so that a check of the copy does
not prove what stands below it once more.

Some kits keep them for the whole machine (`Kept` in `rt`). Of the others they are taken from the crates' own folders
(`BuiltHere`)."""
from __future__ import annotations

import importlib.util
import os
import pathlib
import shutil
from dataclasses import dataclass, field
from importlib.machinery import SourceFileLoader
from typing import Any, Callable, Collection, Dict, Iterator, List, Optional, Sequence, Set

from . import commands
from .kit import COMMAND, kit_library

# What the kit's gate calls, and by which one that keeps libraries finds what it kept.
CALLS, KEEPS = ("Crate", "handles_of"), "Kept"
PARTS = ("src", "specs", "proofs", "c")
# Of what a library is made, in its crate's folder; where it stands there; and the file beside it with its checksum.
SOURCES, RLIB, STAMP = ("src", "specs", "proofs"), os.path.join("out", "rlib"), "stamp"
# How a library was built: by a check, which leaves a checksum, or by `rt ci`, which leaves none.
BY_CHECK, BY_GATE = "check", "gate"
NOT_KEPT = ("these libraries are not proved on this machine, so crates above cannot be tried: %s: "
            "run `rt ci`, or `tools/build`, which proves those of the program")


def gate_of_the_kit() -> Optional[Any]:
    """The kit's command `rt` as a module; None where there is none, or it is not known here."""
    command = shutil.which(COMMAND)
    if command is None:
        return None
    loader = SourceFileLoader("rt_command", os.path.realpath(command))
    spec = importlib.util.spec_from_loader(loader.name, loader)
    if spec is None:
        return None
    gate = importlib.util.module_from_spec(spec)
    try:
        loader.exec_module(gate)
    except (ImportError, SyntaxError):
        return None
    return gate if all(hasattr(gate, name) for name in CALLS) else None


def give(rtlib: Any, folder: str) -> None:
    """Gives the crate in the folder each library below it that the gate kept, proved of the same files over the same
    libraries. What the gate did not keep is left to the check, which proves it."""
    gate = gate_of_the_kit()
    root = rtlib.root_above(folder) or folder
    if gate is None or not hasattr(gate, KEEPS):
        return
    gate.Crate.allowed = gate.handles_of(root)
    libraries = rtlib.Crate(folder, root, {}).below()
    if not all(library.is_built() for library in libraries):
        Libraries(gate.Kept(libraries), libraries).take()


def link(source: str, target: str) -> None:
    """Links a file, or copies it where it cannot be linked."""
    try:
        os.link(source, target)
    except OSError:
        shutil.copy2(source, target)


def times(folder: pathlib.Path) -> Iterator[int]:
    """When each file of a folder was changed, in nanoseconds."""
    return (path.stat().st_mtime_ns for path in folder.rglob("*") if path.is_file())


@dataclass
class BuiltHere:
    """The libraries that stand in the crates' folders at the top, of a kit whose gate keeps none.

    A library fits only those that it was built over. So those that a check built, which have the checksum of all their
    sources, count over such alone. Those of `rt ci` have none: one counts when `is_over` says that the gate has ended,
    over such alone, and if it is newer than its sources and than all libraries below it."""
    top: pathlib.Path
    is_over: Callable[[], bool]
    ways: Dict[str, Optional[str]] = field(default_factory=dict)

    def key(self, library: Any) -> str:
        """The checksum of all sources of a library and of those below it."""
        return str(library.stamp())

    def is_built(self, library: Any) -> None:
        """Nothing is noted of a library that was given."""

    def give(self, library: Any, _is_whole: bool, key: str) -> bool:
        """Puts the library at the top into the crate's folder; whether it counts."""
        if self.way(library, key) is None:
            return False
        shutil.copytree(self.folder(library) / (library.name + ".rlib"), library.rlib, copy_function=link)
        return True

    def folder(self, library: Any) -> pathlib.Path:
        """Where the library stands at the top."""
        return self.top / "crates" / library.name / RLIB

    def way(self, library: Any, key: str) -> Optional[str]:
        """How the library at the top was built, if it counts."""
        if self.ways.get(library.name) is None:
            self.ways[library.name] = self.way_now(library, key)
        return self.ways[library.name]

    def way_now(self, library: Any, key: str) -> Optional[str]:
        """The same, looked up."""
        ways = {self.way(low, self.key(low)) for low in library.deps}
        stamp = self.folder(library) / STAMP
        if stamp.is_file():
            return BY_CHECK if ways <= {BY_CHECK} and stamp.read_text(encoding="utf-8") == key else None
        return BY_GATE if ways <= {BY_GATE} and self.is_over() and self.is_newest(library) else None

    def is_newest(self, library: Any) -> bool:
        """Whether the library at the top is newer than its sources and than all libraries below it."""
        made = list(times(self.folder(library) / (library.name + ".rlib")))
        crate = self.top / "crates" / library.name
        older = [time for part in SOURCES for time in times(crate / part)]
        older += [time for low in library.below() for time in times(self.folder(low))]
        return bool(made) and all(time < min(made) for time in older)


@dataclass
class Libraries:
    """Libraries, which come after those that they name, and the names of those that stand there built."""
    kept: Any
    libraries: Sequence[Any]
    given: Set[str] = field(default_factory=set)

    def take(self) -> List[str]:
        """Takes what the gate kept of the libraries that do not stand there yet. The names of those that it did not
        keep, or that stand on such."""
        for library in self.libraries:
            is_ready = all(low.name in self.given for low in library.below())
            if library.name not in self.given and is_ready and self.is_given(library):
                self.kept.is_built(library)
                self.given.add(library.name)
        return [library.name for library in self.libraries if library.name not in self.given]

    def is_given(self, library: Any) -> bool:
        """Whether the library stands there built, or the gate kept it, which then puts it there."""
        if library.is_built():
            return True
        shutil.rmtree(os.path.join(library.folder, "out", "rlib"), ignore_errors=True)
        if not self.kept.give(library, False, self.kept.key(library)):
            return False
        pathlib.Path(library.folder, "out", "rlib", "stamp").write_text(library.stamp(), encoding="utf-8")
        return True


def repository(top: pathlib.Path, room: pathlib.Path, crates: Collection[str],
               is_over: Callable[[], bool] = lambda: True) -> Optional[Libraries]:
    """Makes a repository in the room of these crates as they stand at the top. Its libraries; None where the kit is
    not known here. `is_over` says whether the gate, which may be at work, has ended."""
    rtlib, gate = kit_library(), gate_of_the_kit()
    if rtlib is None or gate is None:
        return None
    shutil.copy(top / "HANDLES", room)
    lines = (top / "crates.txt").read_text().splitlines()
    own = [line for line in lines if line.partition(":")[0].split()[:1] in [[crate] for crate in crates]]
    (room / "crates.txt").write_text("\n".join(own) + "\n")
    for crate in crates:
        for part in PARTS:
            if (top / "crates" / crate / part).is_dir():
                shutil.copytree(top / "crates" / crate / part, room / "crates" / crate / part)
    gate.Crate.allowed = gate.handles_of(str(room))
    known: Dict[str, Any] = {}
    made = [rtlib.Crate(str(room / "crates" / crate), str(room), known) for crate in crates]
    by_name = {it.name: it for one in made for it in (*one.below(), one) if not it.is_program}
    libraries = list(by_name.values())
    kept = gate.Kept(libraries) if hasattr(gate, KEEPS) else BuiltHere(top, is_over)
    return Libraries(kept, libraries)


def needed(top: pathlib.Path, room: pathlib.Path, crate: str, below: Collection[str]) -> None:
    """Makes a repository in the room of a crate and those below it, whose libraries the gate kept. Raises
    commands.Missing where it kept too few."""
    found = repository(top, room, [*below, crate])
    lacking = sorted(set(below) & set(found.take())) if found else ["those of a kit that is not known here"]
    if lacking:
        raise commands.Missing(NOT_KEPT % " ".join(lacking))
