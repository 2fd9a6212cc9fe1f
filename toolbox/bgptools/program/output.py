"""Where a tool writes: standard output, or a file that is there whole or not at all; and how far it is."""
from __future__ import annotations

import contextlib
import os
import socket
import stat
import sys
import tempfile
import time
from typing import Optional

from .language import escaped
from .mistakes import Mistake

STANDARD = (None, "-", "/dev/stdout", "/dev/fd/1", "/proc/self/fd/1")
# So often it is told how far work is, in seconds.
OFTEN = 0.2


def write(text: str, path: Optional[str]) -> None:
    """Writes a text to the file, or to standard output where there is none."""
    write_bytes(text.encode("utf-8", "surrogateescape"), path)


def write_bytes(content: bytes, path: Optional[str]) -> None:
    """Writes to standard output, or to a file.

    A regular file is replaced at the end by a new one, any other is opened and written to. Raises Mistake where it cannot be written;
    then a regular file is as it was."""
    if path in STANDARD or path is None:
        _print(content)
        return
    try:
        _write(content, path, os.path.realpath(path))
    except (OSError, ValueError) as error:
        raise Mistake("it cannot be written: %s" % (getattr(error, "strerror", None) or error), path) from None


def _print(content: bytes) -> None:
    """Writes to standard output: as it is, but to a terminal as text that cannot steer it."""
    if sys.stdout.isatty():
        sys.stdout.write(escaped(content.decode("utf-8", "backslashreplace"), "\n\t"))
    else:
        sys.stdout.flush()
        sys.stdout.buffer.write(content)
    sys.stdout.flush()


def _write(content: bytes, path: str, target: str) -> None:
    mode = _mode(path)
    if not path:
        raise Mistake("-o and `save` want the name of a file")
    if stat.S_ISDIR(mode) or path.endswith("/"):
        raise Mistake("it cannot be written: it is a folder", path)
    if stat.S_ISSOCK(mode):
        with socket.socket(socket.AF_UNIX) as line:
            line.connect(path)
            line.sendall(content)
    elif not mode or stat.S_ISREG(mode) and os.path.exists(target) and os.path.samefile(path, target):
        _replace(content, target, stat.S_IMODE(mode) if mode else _new_mode())
    else:
        with open(os.open(path, os.O_WRONLY | os.O_NOCTTY), "wb") as file:
            file.write(content)


def _replace(content: bytes, target: str, mode: int) -> None:
    """Puts a new file in the place of the old one, or leaves no trace."""
    handle, part = tempfile.mkstemp(prefix=".part-", dir=os.path.dirname(target))
    try:
        with open(handle, "wb") as file:
            file.write(content)
        os.chmod(part, mode)
        os.replace(part, target)
    except BaseException:
        with contextlib.suppress(FileNotFoundError):
            os.unlink(part)
        raise


def _mode(path: str) -> int:
    """The kind and mode of the file that is there; 0 where there is none."""
    try:
        return os.stat(path).st_mode
    except FileNotFoundError:
        return 0


def _new_mode() -> int:
    mask = os.umask(0)
    os.umask(mask)
    return 0o666 & ~mask


class Progress:
    """Tells how far long work is, on standard error, where that is a terminal. A process that works for another tells nothing."""
    is_wanted = True

    def __init__(self) -> None:
        self.is_shown, self.last = False, time.monotonic()
        self.is_asked = self.is_wanted and sys.stderr.isatty()

    def is_due(self) -> bool:
        """Whether something is to be shown now: at most five times a second."""
        now = time.monotonic()
        if not self.is_asked or now - self.last <= OFTEN:
            return False
        self.last = now
        return True

    def tell(self, text: str) -> None:
        """Shows the text over the one before, if that is due."""
        if self.is_due():
            self.show(text)

    def show(self, text: str) -> None:
        """Shows the text over the one before."""
        self.is_shown = True
        self._write(text)

    def done(self) -> None:
        """Takes the text away."""
        if self.is_shown:
            self._write("")
            self.is_shown = False

    def _write(self, text: str) -> None:
        sys.stderr.flush()
        sys.stderr.buffer.write(b"\r\033[K" + escaped(text).encode("utf-8"))
        sys.stderr.buffer.flush()
