"""The file beside a log, for what a log has no place for: whose each seat is, by which token, names of routers, when
each edit was made, and by which program the log was written.

It is a JSON value a line, and each has one of the shapes of `SHAPES`. Without the file a log is taken up all the same:
its seats have numbers then, its names no tokens, and its edits no times."""
from __future__ import annotations

import contextlib
import json
import math
import os
import re
import tempfile
from typing import Any, BinaryIO, Callable, Dict, Iterator, List, Optional, Tuple

from ..program.language import LONGEST, escaped
from ..program.mistakes import Mistake
from ..program.names import Names
from ..program.process import one_line
from .log import SEATS, Unkept, write_all
from .private_file import keep_to_owner, opened_to_read
from .seats import BESIDE, is_name

Note = Dict[str, Any]
# A router's name is the longest: each byte of its line may be written as `\\u00ff`.
LONGEST_NOTE = 6 * LONGEST + 200
MOST_ENTRY, LATEST = 1 << 40, 1 << 40
LONGEST_WORD = 100
DIGEST = re.compile(r"([0-9a-f]{64})?")


def _is_whole(found: object, low: int, high: int) -> bool:
    return isinstance(found, int) and not isinstance(found, bool) and low <= found <= high


def _is_time(found: object) -> bool:
    return isinstance(found, (int, float)) and not isinstance(found, bool) and 0 <= found <= LATEST \
        and math.isfinite(found)


def _is_naming(found: object) -> bool:
    if not isinstance(found, str) or len(found) > LONGEST:
        return False
    try:
        return Names().take(one_line(found))
    except Mistake:
        return False


def _is_word(found: object) -> bool:
    return isinstance(found, str) and len(found) <= LONGEST_WORD and found.isprintable()


_VALUES: Dict[str, Tuple[Callable[[object], bool], str]] = {
    "program": (_is_word, "the digest of a program"), "version": (_is_word, "a version of at most 100 characters"),
    "commit": (_is_word, "a commit of at most 100 characters"), "kit": (_is_word, "a kit of at most 100 characters"),
    "is_proved": (lambda found: found is None or isinstance(found, bool), "true, false or null"),
    "seat": (lambda found: _is_whole(found, 0, SEATS - 1), "a seat, 0 to %d" % (SEATS - 1)),
    "name": (lambda found: isinstance(found, str) and is_name(found), "a name of 1 to 32 characters without a space"),
    "token": (lambda found: isinstance(found, str) and bool(DIGEST.fullmatch(found)), "64 hexadecimal digits"),
    "entry": (lambda found: _is_whole(found, 1, MOST_ENTRY), "the number of an entry, 1 or more"),
    "at": (lambda found: found is None or _is_time(found), "a time in seconds since 1970, or null"),
    "by": (lambda found: _is_whole(found, 0, SEATS - 1), "a seat, 0 to %d" % (SEATS - 1)),
    "undoes": (lambda found: isinstance(found, bool), "true or false"),
    "router": (_is_naming, "a comment that names a router, as `# name 1.0.0.1 edge`"),
    "behind": (lambda found: _is_whole(found, 0, MOST_ENTRY), "a number of entries"),
    "back": (lambda found: _is_whole(found, 0, SEATS - 1), "a seat, 0 to %d" % (SEATS - 1))}
# What a note is about comes first, then what it must have, and what it may have.
SHAPES: Dict[str, Tuple[List[str], List[str]]] = {
    "seat": ([], ["name", "token"]), "entry": ([], ["at", "by", "undoes"]), "router": ([], ["behind", "by"]),
    "back": (["behind"], []), "program": ([], ["version", "commit", "kit", "is_proved"])}


def fault_of(note: object) -> str:
    """What is wrong with a note; empty where it has one of the shapes."""
    about = [name for name in SHAPES if isinstance(note, dict) and name in note]
    if not isinstance(note, dict) or len(about) != 1:
        return "a note of a log is expected, with one of %s" % ", ".join(map("`%s`".__mod__, SHAPES))
    needed, free = SHAPES[about[0]]
    missing = [name for name in needed if name not in note]
    if missing:
        return "`%s` is missing beside `%s`" % (missing[0], about[0])
    odd = [name for name in note if name not in (about[0], *needed, *free)]
    if odd:
        return "`%s` has no place beside `%s`" % (escaped(odd[0][:32]), about[0])
    wrong = [name for name in note if not _VALUES[name][0](note[name])]
    return "`%s` has to be %s" % (wrong[0], _VALUES[wrong[0]][1]) if wrong else ""


class Notes:
    """The file beside a log. What stands behind its last line end is left out. `size` is how many bytes it has."""

    def __init__(self, log: str) -> None:
        self.path = log + BESIDE
        self.file: Optional[BinaryIO] = None
        self.size = 0

    def read(self, tell: Callable[[str], None] = lambda _: None) -> List[Note]:
        """What was noted; nothing where there is no such file. `tell` gets a word where others may read it. Mistake,
        with its line, where a note is none."""
        try:
            with opened_to_read(self.path) as file:
                keep_to_owner(file, self.path, tell)
                with os.fdopen(os.dup(file.fileno()), "rb") as buffered:
                    return list(self._notes(buffered))
        except FileNotFoundError:
            return []
        except OSError as error:
            raise Mistake("it cannot be read: %s" % error.strerror, self.path) from None

    def _notes(self, file: BinaryIO) -> Iterator[Note]:
        number = 0
        line = file.readline(LONGEST_NOTE + 1)
        while line.endswith(b"\n"):
            number += 1
            yield self._note(number, line)
            line = file.readline(LONGEST_NOTE + 1)
        if len(line) > LONGEST_NOTE:
            raise self._mistake("a line of more than %d bytes" % LONGEST_NOTE, number + 1)

    def _note(self, number: int, line: bytes) -> Note:
        try:
            note = json.loads(line.decode("ascii"))
        except (ValueError, RecursionError):
            note = None
        fault = fault_of(note)
        if fault:
            raise self._mistake(fault, number)
        made: Note = note
        return made

    def _mistake(self, fault: str, number: int) -> Mistake:
        return Mistake(fault + "; without this file the log can be taken up, too", self.path, number)

    def begin(self, notes: List[Note]) -> None:
        """Writes these notes in the place of all others, and goes on behind them. Raises Unkept where it cannot."""
        self.close()
        folder, name = os.path.split(os.path.abspath(self.path))
        try:
            handle, part = tempfile.mkstemp(prefix=name + ".", suffix=".part", dir=folder)
        except OSError as error:
            raise self._unkept(error) from None
        try:
            file: BinaryIO = os.fdopen(handle, "r+b", buffering=0)
            content = text_of(notes)
            write_all(file, content, 0, self.path)
            os.fsync(file.fileno())
            os.replace(part, self.path)
        except BaseException as fault:
            with contextlib.suppress(OSError):
                os.unlink(part)
            if isinstance(fault, OSError):
                raise self._unkept(fault) from None
            raise
        self.file, self.size = file, len(content)

    def _unkept(self, error: OSError) -> Unkept:
        return Unkept("it cannot be written: %s" % error.strerror, self.path)

    def add(self, notes: List[Note]) -> int:
        """Writes notes: how many bytes they are. Raises Unkept where it cannot."""
        content = text_of(notes)
        if content and self.file:
            self.file.seek(self.size)
            write_all(self.file, content, self.size, self.path)
            self.size += len(content)
        return len(content)

    def close(self) -> None:
        """Notes are written no more, until they begin again."""
        if self.file:
            self.file.close()
            self.file = None


def text_of(notes: List[Note]) -> bytes:
    """Notes as they stand in the file."""
    return "".join(json.dumps(note) + "\n" for note in notes).encode("ascii")


def entry_of(note: Note) -> int:
    """The entry of the log that a note is about; 0 where it is about none."""
    found: int = note.get("entry", 0)
    return found


def edit_of(note: Note) -> Tuple[Optional[float], Optional[int], bool]:
    """When an edit was made, the seat that accepted it, and whether it takes another one back."""
    return note.get("at"), note.get("by"), note.get("undoes", False)
