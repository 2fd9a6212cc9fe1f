"""The record beside a built program: what it was built of, whether it was proved, and whether it is still current.

A program `bgpsim` has `bgpsim.json` beside it, which toolbox/bgptools/program/provenance.py reads, and `bgpsim.crates`: the
lines of crates.txt of the program and of all crates that it stands on. `./bgpsim` takes a program as current where
neither crates.txt nor a file of these crates is newer. Where one is newer, `is_current` compares digests."""
from __future__ import annotations

import contextlib
import hashlib
import json
import os
import pathlib
import re
import subprocess
from dataclasses import dataclass
from typing import Dict, List, Optional, Sequence

from .kit import Failed

PROGRAM = "bgpsim"
UNKNOWN = "unknown"
# What each kind of program is made of.
COMPILED_PARTS, ALL_PARTS = ("src", "specs"), ("src", "specs", "proofs")
ENDINGS = (".rt", ".antt")


@dataclass(frozen=True)
class Kind:
    """A kind of program: its name, its file below crates/bgpsim/out, and the folders of a crate that it is made of."""
    name: str
    file: str
    parts: Sequence[str]
    is_proved: bool

    def path(self, top: pathlib.Path) -> pathlib.Path:
        """Where the program of this kind stands."""
        return top / "crates" / PROGRAM / "out" / self.file


KINDS = {kind.name: kind for kind in (
    Kind("proved", PROGRAM, ALL_PARTS, True), Kind("unproved", "unproved/" + PROGRAM, COMPILED_PARTS, False),
    Kind("checked", "checked/" + PROGRAM, COMPILED_PARTS, False))}


class Tree:
    """The sources that the program is built of, below the top of a repository."""

    def __init__(self, top: pathlib.Path) -> None:
        self.top = top
        self.lines = crate_lines((top / "crates.txt").read_text(encoding="utf-8"))
        self.sums: Dict[pathlib.Path, bytes] = {}

    def files(self, parts: Sequence[str]) -> List[pathlib.Path]:
        """The sources, definitions and proofs in these folders of each crate, in order."""
        folders = [self.top / "crates" / name / part for name in self.lines for part in parts]
        found = [path for folder in folders for path in folder.rglob("*") if path.suffix in ENDINGS and path.is_file()]
        return sorted(found)

    def digest(self, parts: Sequence[str]) -> str:
        """The SHA-256, in hexadecimal, of the lines of crates.txt and of the names and contents of these files."""
        made = hashlib.sha256("".join(line + "\n" for line in self.lines.values()).encode())
        for path in self.files(parts):
            if path not in self.sums:
                self.sums[path] = hashlib.sha256(path.read_bytes()).digest()
            made.update(str(path.relative_to(self.top)).encode() + b"\0" + self.sums[path])
        return made.hexdigest()


def crate_lines(text: str) -> Dict[str, str]:
    """The lines of crates.txt of the program and of all crates that it stands on, by the crate's name, in order.

    Comments are left out."""
    lines, needs = {}, {}
    for line in (re.sub(r" *#.*", "", line) for line in text.split("\n")):
        head, colon, below = line.partition(":")
        if colon:
            name = head.split()[0]
            lines[name], needs[name] = line, below.split()
    found, waiting = set(), [PROGRAM]
    while waiting:
        name = waiting.pop()
        if name in lines and name not in found:
            found.add(name)
            waiting += needs[name]
    return {name: line for name, line in lines.items() if name in found}


def commit_of(top: pathlib.Path) -> str:
    """The commit of the tree, with `-dirty` where a tracked file differs from it; `unknown` where git names none."""
    at_top, head = _git(top, "rev-parse", "--show-prefix"), _git(top, "rev-parse", "HEAD")
    if at_top or not head:
        return UNKNOWN
    return head + ("-dirty" if _git(top, "status", "--porcelain", "--untracked-files=no") else "")


def _git(top: pathlib.Path, *words: str) -> str:
    return _said(["git", "-C", str(top), *words])


def kit() -> str:
    """The kit's line, as `rt version` prints it; `unknown` where it prints none."""
    return _said(["rt", "version"]).split("\n")[0] or UNKNOWN


def version_of(program: pathlib.Path) -> Optional[str]:
    """The version that the program says, as `0.1.0`; None where it does not run or says something else."""
    found = re.fullmatch(r"bgpsim (\S+)", _said([str(program), "--version"]))
    return found.group(1) if found else None


def _said(words: List[str]) -> str:
    """What a command prints, without the end of its last line; nothing where it fails."""
    try:
        ran = subprocess.run(words, stdin=subprocess.DEVNULL, stdout=subprocess.PIPE, stderr=subprocess.DEVNULL,
                             timeout=100)
    except (OSError, subprocess.TimeoutExpired):
        return ""
    return ran.stdout.decode("utf-8", "replace").rstrip("\n") if ran.returncode == 0 else ""


def sum_of(path: pathlib.Path) -> str:
    """The SHA-256 of a file, in hexadecimal."""
    return hashlib.sha256(path.read_bytes()).hexdigest()


def write(kind: Kind, tree: Tree, began: int, made: Optional[pathlib.Path] = None) -> None:
    """Puts the program `made` in its place with its record; with none the program that stands there gets its record.

    The program's time is when the build began, in nanoseconds, so that a file that was changed since is newer.
    Failed where the program does not run."""
    path = kind.path(tree.top)
    program = made or path
    version = version_of(program)
    if version is None:
        raise Failed("the program was built, and does not run: %s --version prints no version" % program)
    record = {"version": version, "commit": commit_of(tree.top), "is_proved": kind.is_proved, "kit": kit(),
              "digest": tree.digest(ALL_PARTS), "built_from": tree.digest(kind.parts), "sha256": sum_of(program)}
    path.parent.mkdir(parents=True, exist_ok=True)
    if made:
        # Between these steps the record is of another program than the one that stands there, which is seen by its sum.
        part = path.with_name(".part-%d" % os.getpid())
        try:
            part.write_bytes(made.read_bytes())
            part.chmod(0o755)
            os.replace(str(part), str(path))
        finally:
            with contextlib.suppress(FileNotFoundError):
                part.unlink()
    _replace(path.with_name(path.name + ".crates"), "".join(line + "\n" for line in tree.lines.values()))
    _replace(path.with_name(path.name + ".json"), json.dumps(record, indent=2) + "\n")
    os.utime(str(path), ns=(began, began))


def _replace(path: pathlib.Path, text: str) -> None:
    """Writes a file, which is there whole or not at all."""
    part = path.with_name("%s.part-%d" % (path.name, os.getpid()))
    try:
        part.write_text(text, encoding="utf-8")
        os.replace(str(part), str(path))
    finally:
        with contextlib.suppress(FileNotFoundError):
            part.unlink()


def is_current(kind: Kind, top: pathlib.Path, now: int) -> bool:
    """Whether the program of a kind stands there and was built of the files as they are, by their contents.

    Then its time becomes `now`, in nanoseconds, so that `./bgpsim` need not ask again. A proved program without a
    record, as the gate and `rt run` leave it, is taken as current where no file is newer, and gets its record."""
    path = kind.path(top)
    if not (path.is_file() and os.access(str(path), os.X_OK)):
        return False
    tree, record = Tree(top), _read(path)
    if record:
        if record.get("built_from") != tree.digest(kind.parts):
            return False
        _replace(path.with_name(path.name + ".crates"), "".join(line + "\n" for line in tree.lines.values()))
        os.utime(str(path), ns=(now, now))
        os.utime(str(path.with_name(path.name + ".json")))
        return True
    if not kind.is_proved or _is_newer_than(path, tree, kind):
        return False
    try:
        write(kind, tree, path.stat().st_mtime_ns)
    except Failed:
        return False
    return True


def _read(path: pathlib.Path) -> Optional[Dict[str, object]]:
    """The record of the program; None where there is none, or it is another program's."""
    try:
        record = json.loads(path.with_name(path.name + ".json").read_text(encoding="utf-8"))
        return record if isinstance(record, dict) and record.get("sha256") == sum_of(path) else None
    except (OSError, ValueError):
        return None


def _is_newer_than(path: pathlib.Path, tree: Tree, kind: Kind) -> bool:
    """Whether crates.txt or a file that the program is made of is newer than the program."""
    time = path.stat().st_mtime_ns
    return any(it.stat().st_mtime_ns > time for it in [tree.top / "crates.txt", *tree.files(kind.parts)])
