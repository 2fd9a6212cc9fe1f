"""Tries edits that must not compile: crates/CRATE/compile-fail/*.edit, each of which gives a call a value of another
type.

    tools/compile-fail [CRATE..]    without a crate: all that have compile-fail/; a part of the gate

An edit is a line `file: src/lib.rt` and pairs of lines `old: TEXT` and `new: TEXT`, as in mutants/, where it cannot
stand, since it never reaches the prover; and lines `said: TEXT`, each of which the compiler has to say, at a line of
that file, of types that do not match; or `said: [KIND] TEXT`, of an error of another kind, which begins with the text.
It is tried on a copy of the crates, by `rt try --test`, which compiles before any proof: in the crate, or, where that
has no tests, in the first crate above it that has. Each such line counts. The last line is `N passed, M failed`.
"""
from __future__ import annotations

import pathlib
import re
import shutil
import subprocess
import sys
import tempfile
from typing import List, Sequence

from . import commands, try_mutants
from .programs import TOP

PARTS = ("src", "specs")

ERROR = r"(?m)^(?:\S*/)?%s:\d+:\d+: error\[%s\]: %s"
# What is said of an error of another kind.
OF_KIND = re.compile(r"\[([a-z-]+)\] (.*)")


def lines_of(edit: pathlib.Path, word: str) -> List[str]:
    """What the edit says behind a word."""
    return [line[len(word) + 2:] for line in edit.read_text().splitlines() if line.startswith(word + ": ")]


def wrong(edit: pathlib.Path, told: str, is_above: bool = False) -> List[str]:
    """What the compiler should have said of an edit, and did not; with the first error that it said. Where a crate
    above is compiled, the crate stands before the file."""
    (file,) = lines_of(edit, "file")
    at = "%s/%s" % (edit.parent.parent.name, file) if is_above else file
    errors = [line for line in told.splitlines() if "error" in line] or told.splitlines()[-1:] or ["nothing"]
    return ["%s: the compiler says %s" % (said, errors[0]) for said in lines_of(edit, "said")
            if not re.search(pattern(at, said), told)]


def pattern(file: str, said: str) -> str:
    """What the compiler prints of an error at a line of the file."""
    found = OF_KIND.fullmatch(said)
    kind, text, end = (found[1], found[2], "") if found else ("mismatched-types", said, "$")
    return ERROR % (re.escape(file), kind, re.escape(text)) + end


def has_tests(crate: str) -> bool:
    """Whether the crate has tests, which `rt try --test` needs."""
    return any("#[test]" in path.read_text() for path in (TOP / "crates" / crate / "src").rglob("*.rt"))


def compiled_in(crate: str) -> str:
    """The crate itself, or where it has no tests the first crate above it that has."""
    below = try_mutants.below()
    above = [name for name in below if crate in below[name]]
    return next((name for name in [crate, *above] if has_tests(name)), crate)


def copy(room: pathlib.Path) -> None:
    """All crates, as far as compiling them asks for it."""
    for file in ("HANDLES", "crates.txt"):
        shutil.copy(TOP / file, room)
    for crate in try_mutants.below():
        for part in filter(lambda part: (TOP / "crates" / crate / part).is_dir(), PARTS):
            shutil.copytree(TOP / "crates" / crate / part, room / "crates" / crate / part)


def compiled(folder: pathlib.Path) -> str:
    """What the compiler says where the crate in the folder and its tests are compiled."""
    words = [sys.executable, "-B", str(TOP / "tools" / "build"), "--rt", "--", "try", "--test"]
    ran = subprocess.run(words, cwd=folder, stdin=subprocess.DEVNULL, stdout=subprocess.PIPE, stderr=subprocess.STDOUT)
    return ran.stdout.decode("latin-1")


def tried(edit: pathlib.Path, folder: pathlib.Path) -> List[str]:
    """What is wrong with the edit of the crate in the folder."""
    texts, why = try_mutants.texts_of(edit, folder)
    if why:
        return [why]
    were = {path: path.read_text() for path in texts}
    for path, text in texts.items():
        path.write_text(text)
    above = compiled_in(folder.name)
    told = compiled(folder.parent / above)
    for path, text in were.items():
        path.write_text(text)
    return wrong(edit, told, above != folder.name)


def try_all(crates: Sequence[str]) -> int:
    passed = failed = 0
    edits = [(crate, edit) for crate in crates
             for edit in sorted((TOP / "crates" / crate / "compile-fail").glob("*.edit"))]
    with tempfile.TemporaryDirectory(prefix="compile-fail-") as room:
        copy(pathlib.Path(room))
        for crate, edit in edits:
            found = tried(edit, pathlib.Path(room) / "crates" / crate)
            passed += max(0, len(lines_of(edit, "said")) - len(found))
            failed += len(found)
            print("".join("FAILED %s/%s: %s\n" % (crate, edit.stem, one) for one in found), end="", flush=True)
    return commands.counted(passed, failed)


def main(words: Sequence[str]) -> int:
    """The command."""
    asked = commands.parser(__doc__)
    asked.add_argument("crates", nargs="*", metavar="CRATE")
    crates, known = asked.parse_args(words).crates, try_mutants.below()
    unknown = [crate for crate in crates if crate not in known]
    if unknown:
        asked.error("crates.txt has no %s" % " ".join(unknown))
    return commands.as_part(lambda: try_all(crates or list(known)))
