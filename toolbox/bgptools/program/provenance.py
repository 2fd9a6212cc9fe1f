"""Where a program comes from: its version and commit, whether it was proved, by which kit, and of which sources.

A build writes that beside the program, as `bgpsim.json`. The package has both in PREFIX/lib/bgpsim; its
PREFIX/bin/bgpsim is a script that runs the program. `python3 -m bgptools.program.provenance PROGRAM` prints it.
"""
from __future__ import annotations

import functools
import hashlib
import json
import os
import pathlib
import shutil
import subprocess
import sys
from dataclasses import dataclass
from typing import Any, Dict, List, Optional

from .mistakes import Mistake

UNKNOWN = "unknown"
ENDING, INSTALLED = ".json", "lib/bgpsim/bgpsim"
PIECE = 1 << 20
# How long a program may take to say its version, in seconds.
PATIENCE = 60
VERDICTS = {True: "yes, by %s", False: "no, compiled by %s", None: UNKNOWN}


@dataclass(frozen=True)
class Provenance:
    """Where a program comes from. What is not known is `unknown`.

    `version` is as `0.1.0`; `commit` is git's, with `-dirty` where tracked files differed; `is_proved` is None where
    that is not known; `kit` is the kit that proved or compiled it. `digest` is `sources-sha256:` and 64 hexadecimal
    digits, over the sources, definitions and proofs; for a program without a record `program-sha256:` and the sum of
    the program itself; `unknown` for a program that cannot be read."""
    version: str
    commit: str
    is_proved: Optional[bool]
    kit: str
    digest: str

    def lines(self) -> List[str]:
        """What `--version` says below the program's own line."""
        verdict = VERDICTS[self.is_proved]
        return ["commit: " + self.commit, "proved: " + (verdict % self.kit if "%" in verdict else verdict),
                "digest: " + self.digest]

    def as_json(self) -> Dict[str, Any]:
        """The same for a file of JSON."""
        return {"version": self.version, "commit": self.commit, "is_proved": self.is_proved, "kit": self.kit,
                "digest": self.digest}


def of(path: str) -> Provenance:
    """Where the program at this path, or of this name on the PATH, comes from; of the package's script, that which it
    runs.

    The first call reads the program, milliseconds; a further one looks whether it has changed. A record that belongs
    to another program, as after a copy over the first, is left aside."""
    whole = _behind(path if os.sep in path else shutil.which(path) or path)
    try:
        told = os.stat(whole)
    except OSError:
        return _unknown(UNKNOWN)
    return _of(whole, told.st_mtime_ns, told.st_size)


def record_of(path: str) -> Optional[pathlib.Path]:
    """The file with the record of a program; None where there is none, or it is of another program."""
    return _beside(_behind(path)) if of(path).is_proved is not None else None


def _behind(path: str) -> str:
    """The program that the package's script at this path runs; of another file the path, from the root."""
    real = pathlib.Path(os.path.realpath(path))
    program = real.parent.parent / INSTALLED
    if (real.parent.name, real.name) == ("bin", program.name) and program.is_file() and _is_script(real):
        return str(program)
    return os.path.abspath(path)


def _is_script(path: pathlib.Path) -> bool:
    try:
        with open(str(path), "rb") as file:
            return file.read(2) == b"#!"
    except OSError:
        return False


@functools.lru_cache(maxsize=64)
def _of(path: str, _time: int, _size: int) -> Provenance:
    """The same, by the program's path, time and size."""
    try:
        total = _sum(path)
    except OSError:
        return _unknown(UNKNOWN)
    return _recorded(_beside(path), total) or _unknown("program-sha256:" + total)


def _unknown(digest: str) -> Provenance:
    return Provenance(UNKNOWN, UNKNOWN, None, UNKNOWN, digest)


def _sum(path: str) -> str:
    """The SHA-256 of a file, in hexadecimal."""
    made = hashlib.sha256()
    with open(path, "rb") as file:
        for piece in iter(lambda: file.read(PIECE), b""):
            made.update(piece)
    return made.hexdigest()


def _beside(path: str) -> pathlib.Path:
    """Where the record of a program stands, if there is one; links to the program are followed."""
    real = pathlib.Path(os.path.realpath(path))
    return real.with_name(real.name + ENDING)


def _recorded(record: pathlib.Path, total: str) -> Optional[Provenance]:
    """What a record says; None where there is none, it is of a program of another sum, or it is no record."""
    try:
        found = json.loads(record.read_text(encoding="utf-8"))
        if found["sha256"] != total or not isinstance(found["is_proved"], bool):
            return None
        version, commit, kit, digest = (str(found[name]) for name in ("version", "commit", "kit", "digest"))
    except (OSError, ValueError, KeyError, TypeError):
        return None
    return Provenance(version, commit, found["is_proved"], kit, "sources-sha256:" + digest)


def version_lines(path: str) -> List[str]:
    """What `bgpsim --version` prints: the program's own line, and below it where it comes from.

    Mistake where the program cannot be run, or prints no version."""
    try:
        ran = subprocess.run([path, "--version"], stdin=subprocess.DEVNULL, stdout=subprocess.PIPE, timeout=PATIENCE)
    except (OSError, subprocess.TimeoutExpired) as fault:
        raise Mistake("the program cannot be run: %s" % (getattr(fault, "strerror", None) or fault), path) from None
    if ran.returncode:
        raise Mistake("`--version` ended with status %d" % ran.returncode, path)
    return ran.stdout.decode("utf-8", "backslashreplace").splitlines()[:1] + of(path).lines()


def main(words: List[str]) -> int:
    """Prints where a program comes from."""
    if len(words) != 1:
        raise Mistake("usage: python3 -m bgptools.program.provenance PROGRAM")
    print("\n".join(of(words[0]).lines()))
    return 0


if __name__ == "__main__":
    from .mistakes import ended
    sys.exit(ended(main))
