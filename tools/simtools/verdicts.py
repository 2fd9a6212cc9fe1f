"""What checks of mutants came to, kept on this machine by the checksum of all that a check reads: the kit, the crate's
line, its sources, definitions and proofs and those of the crates below it, and the edit."""
from __future__ import annotations

import hashlib
import json
import os
import pathlib
import tempfile
from dataclasses import dataclass, field
from typing import Dict, NamedTuple, Optional, Sequence, Set

PARTS = ("src", "specs", "proofs", "c")


class Verdict(NamedTuple):
    """What a check of a mutant came to, and why; and its share of the check's processor seconds."""
    word: str
    why: Optional[str]
    seconds: float


def folder() -> pathlib.Path:
    """Where verdicts are kept: bgpsim/mutants in the user's folder of caches."""
    return pathlib.Path(os.environ.get("XDG_CACHE_HOME") or pathlib.Path.home() / ".cache") / "bgpsim" / "mutants"


def sum_of_files(top: pathlib.Path, parts: Sequence[str]) -> str:
    """The checksum of all files in these folders, with their paths."""
    found = hashlib.sha256()
    for part in parts:
        for path in sorted((top / part).rglob("*")):
            if path.is_file():
                found.update(repr((path.relative_to(top).as_posix(), path.read_bytes())).encode())
    return found.hexdigest()


@dataclass
class Verdicts:
    """The verdicts that are kept. `kit` names the kit that judged, and `below` the crates that each crate stands on."""
    top: pathlib.Path
    kit: str
    below: Dict[str, Set[str]]
    at: pathlib.Path
    sums: Dict[str, str] = field(default_factory=dict)

    def sum_of(self, crate: str) -> str:
        """The checksum of the files of a crate, and of its line of crates.txt."""
        if crate not in self.sums:
            lines = (self.top / "crates.txt").read_text().splitlines()
            own = [line for line in lines if line.partition(":")[0].split()[:1] == [crate]]
            files = sum_of_files(self.top / "crates" / crate, PARTS)
            self.sums[crate] = hashlib.sha256(repr((own, files)).encode()).hexdigest()
        return self.sums[crate]

    def key(self, crate: str, edit: pathlib.Path) -> str:
        """The checksum of all that a check of the edited crate reads."""
        crates = [(name, self.sum_of(name)) for name in sorted(self.below[crate] | {crate})]
        handles = (self.top / "HANDLES").read_bytes()
        return hashlib.sha256(repr((self.kit, handles, crates, edit.read_bytes())).encode()).hexdigest()

    def kept(self, crate: str, edit: pathlib.Path) -> Optional[Verdict]:
        """What an earlier check of the same came to; None where none is kept, or what is kept cannot be read."""
        key = self.key(crate, edit)
        try:
            said = json.loads((self.at / key).read_text())
            return Verdict(said["word"], said["why"], float(said["seconds"])) if said["key"] == key else None
        except (OSError, ValueError, KeyError, TypeError):
            return None

    def keep(self, crate: str, edit: pathlib.Path, verdict: Verdict) -> None:
        """Keeps what a check came to. A folder that cannot be written keeps nothing: the next run tries it again."""
        key = self.key(crate, edit)
        try:
            self.at.mkdir(parents=True, exist_ok=True)
            with tempfile.NamedTemporaryFile("w", dir=str(self.at), delete=False) as file:
                json.dump({"key": key, **verdict._asdict()}, file)
            os.replace(file.name, str(self.at / key))
        except OSError:
            pass
