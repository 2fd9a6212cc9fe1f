"""What is typed at a prompt, in a file that is there while the prompt runs: after a crash it can be had back from it.

A prompt holds a lock on its journal, and the system takes that back whatever ends the prompt. So a journal without a
lock was left behind."""
from __future__ import annotations

import contextlib
import errno
import fcntl
import os
import pathlib
import tempfile
import time
from typing import BinaryIO, Callable, List, Optional

from ..program.language import readable
from ..program.mistakes import Mistake
from ..program.script import Line, content_of, lines_of


def folder() -> pathlib.Path:
    """Where journals are. It is no absolute path where there is no home."""
    given = os.environ.get("XDG_STATE_HOME", "")
    return pathlib.Path(given if os.path.isabs(given) else os.path.expanduser("~/.local/state")) / "bgpsim"


class Journal:
    """The journal of a prompt. `tell` is given a word on the first fault of it; the prompt goes on without one."""

    def __init__(self, tell: Callable[[str], None]) -> None:
        self.tell, self.is_kept = tell, True
        self.path: Optional[pathlib.Path] = None
        self.file: Optional[BinaryIO] = None

    def add(self, line: str) -> None:
        """Writes an accepted line."""
        if self.file is None:
            self.replace([line])
        elif self.is_kept:
            self._try(lambda: self._write(self.file, content_of([line])))

    def replace(self, lines: List[str]) -> None:
        """Writes another journal in the place of this one: a crash leaves the one or the other."""
        if self.is_kept:
            self._try(lambda: self._replace(content_of(lines)))

    def take_up(self, path: pathlib.Path) -> List[Line]:
        """Makes a journal that was left behind this prompt's: its lines. Raises Mistake where another prompt has it."""
        try:
            file = open(path, "r+b", buffering=0)
            content = file.read()
        except OSError as error:
            raise Mistake("it cannot be taken up: " + error.strerror, str(path)) from None
        if not can_lock(file):
            file.close()
            raise Mistake("it is the work of a prompt that still runs", str(path))
        self.path, self.file = path, file
        whole, _, cut = content.rpartition(b"\n")
        if cut:
            self.tell("the last line was cut off, and is left out: `%s`" % readable(cut.decode("latin-1")))
        return lines_of(whole + b"\n" if whole else b"", str(path))

    def remove(self) -> None:
        """Takes the journal away: the prompt has ended as it should."""
        if self.file is not None and self.path is not None:
            self.path.unlink(missing_ok=True)
            self.file.close()
            self.file = None

    def _try(self, write: Callable[[], None]) -> None:
        try:
            write()
        except OSError as error:
            self.is_kept = False
            self.tell("what is typed from here on cannot be kept for `play --restore`: %s%s" % (
                error.strerror, "" if error.filename is None else ", " + str(error.filename)))

    @staticmethod
    def _write(file: Optional[BinaryIO], content: bytes) -> None:
        while file is not None and content:
            content = content[file.write(content):]

    def _replace(self, content: bytes) -> None:
        place = folder()
        if not place.is_absolute():
            raise OSError(errno.ENOENT, "there is no home folder")
        place.mkdir(mode=0o700, parents=True, exist_ok=True)
        handle, part = tempfile.mkstemp(prefix=".part-", dir=place)
        file = open(handle, "r+b", buffering=0)
        try:
            fcntl.flock(file, fcntl.LOCK_EX)
            self._write(file, content)
            path = self.path or place / ("%s-%d.bgp" % (time.strftime("%Y%m%d-%H%M%S"), os.getpid()))
            os.replace(part, path)
        except BaseException:
            with contextlib.suppress(FileNotFoundError):
                os.unlink(part)
            file.close()
            raise
        if self.file is not None:
            self.file.close()
        self.path, self.file = path, file


def can_lock(file: BinaryIO) -> bool:
    """Takes the lock of a journal, if no prompt has it."""
    try:
        fcntl.flock(file, fcntl.LOCK_EX | fcntl.LOCK_NB)
        return True
    except OSError:
        return False


def left_behind() -> List[pathlib.Path]:
    """The journals whose prompts have ended otherwise than they should, the newest first."""
    try:
        found = sorted(((path.stat().st_mtime_ns, path) for path in folder().glob("*.bgp")), reverse=True)
    except OSError:
        return []
    return [path for _, path in found if _is_left(path)]


def _is_left(path: pathlib.Path) -> bool:
    try:
        with open(path, "rb") as file:
            return os.fstat(file.fileno()).st_size > 0 and can_lock(file)
    except OSError:
        return False
