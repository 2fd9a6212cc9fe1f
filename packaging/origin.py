"""Where a package comes from: the program that was built, and the commit of the repository."""
from __future__ import annotations

import os
import pathlib
import re
import subprocess
import time
from dataclasses import dataclass
from typing import List, Optional, Set

from bgptools.program import provenance
from bgptools.program.mistakes import Mistake

TOP = pathlib.Path(__file__).resolve().parent.parent
BUILT = TOP / "crates" / "bgpsim" / "out" / "bgpsim"
MADE_OF = BUILT.with_name("bgpsim.crates")


@dataclass(frozen=True)
class Commit:
    """The commit of the repository: its hash, its Unix time, who answers for it, and whether files differ from it."""
    name: str
    seconds: int
    author: str
    is_changed: bool

    def __str__(self) -> str:
        return self.name + (" with local changes" if self.is_changed else "")

    @property
    def version(self) -> str:
        """What tells it from other commits, later ones being greater."""
        day = time.strftime("%Y%m%d.%H%M%S", time.gmtime(self.seconds))
        return "%s.%s%s" % (day, self.name[:9], ".changed" if self.is_changed else "")


def program() -> pathlib.Path:
    """The program to be packed: PROGRAM=, or what `./bgpsim` built. Mistake without one, or where a source is newer."""
    path = pathlib.Path(os.environ.get("PROGRAM") or BUILT).resolve()
    if not os.access(str(path), os.X_OK) or not path.is_file():
        remedy = "`./bgpsim --prove` builds it, or name another one by PROGRAM="
        raise Mistake("there is no program: " + (remedy if _is_built_here() else "PROGRAM= names it"), str(path))
    newer = _newer_source() if _is_built_here() else None
    if newer:
        raise Mistake("it is newer than the program: ./bgpsim --prove builds it", str(newer.relative_to(TOP)))
    return path


def version_of(path: pathlib.Path) -> str:
    """The version that the program says."""
    try:
        ran = subprocess.run([str(path), "--version"], stdin=subprocess.DEVNULL, capture_output=True, timeout=60)
    except (OSError, subprocess.TimeoutExpired) as fault:
        raise Mistake("it cannot be run: %s" % fault, str(path)) from None
    said = ran.stdout.decode("ascii", "replace")
    found = re.fullmatch(r"bgpsim ([0-9][0-9.]*)\n", said)
    if not found:
        raise Mistake("it is no bgpsim: to --version it says %r" % said, str(path))
    return found.group(1)


def commit() -> Commit:
    """The commit of this tree. Mistake where git tells none."""
    told = git("log", "-1", "--format=%H%n%ct%n%an <%ae>").split("\n")
    return Commit(told[0], int(told[1]), told[2], bool(git("status", "--porcelain").strip()))


def record(path: pathlib.Path) -> Optional[pathlib.Path]:
    """The file beside a program in which its build says where it comes from; None without one of this program."""
    return provenance.record_of(str(path))


def proved(path: pathlib.Path, of: Commit) -> str:
    """Sentences that say of which commit the program is, whether it was proved, and by which kit."""
    said = provenance.of(str(path))
    if said.is_proved is None:
        return ("It is not known of which commit the program was built, and whether it was proved. All else is of "
                "commit %s." % of)
    form = ("The program was proved and built of commit %s by %s." if said.is_proved
            else "The program is not proved. It was compiled of commit %s by %s.")
    return form % (said.commit, said.kit)


def _is_built_here() -> bool:
    return not os.environ.get("PROGRAM")


def _newer_source() -> Optional[pathlib.Path]:
    """What the program is made of and is newer than it, if anything: a source, a definition, a proof, or crates.txt."""
    built = BUILT.stat().st_mtime
    crates = _lines(TOP / "crates.txt")
    made_of = _lines(MADE_OF) if MADE_OF.is_file() else crates
    if not made_of <= crates or (not MADE_OF.is_file() and (TOP / "crates.txt").stat().st_mtime > built):
        return TOP / "crates.txt"
    names = [line.replace(":", " ").split()[0] for line in made_of]
    folders = [TOP / "crates" / name / part for name in names for part in ("src", "specs", "proofs")]
    files = (path for folder in folders for path in folder.rglob("*") if path.suffix in (".rt", ".antt"))
    return min((path for path in files if path.stat().st_mtime > built), default=None)


def _lines(path: pathlib.Path) -> Set[str]:
    """The crates of a file like crates.txt, each with what it stands on."""
    lines = (line.split("#")[0].rstrip() for line in path.read_text(encoding="utf-8").split("\n"))
    return {line for line in lines if ":" in line}


def git(*words: str) -> str:
    """What git prints of this repository. Mistake where it fails."""
    return _said(["git", "-C", str(TOP), *words])


def _said(words: List[str]) -> str:
    """What a command prints. Mistake where it fails."""
    try:
        ran = subprocess.run(words, stdin=subprocess.DEVNULL, capture_output=True, timeout=100)
    except (OSError, subprocess.TimeoutExpired) as fault:
        raise Mistake("%s: %s" % (words[0], fault)) from None
    if ran.returncode:
        raise Mistake("%s: %s" % (words[0], ran.stderr.decode("utf-8", "replace").strip()))
    return ran.stdout.decode("utf-8", "replace")
