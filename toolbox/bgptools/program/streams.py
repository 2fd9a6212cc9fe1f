"""The standard streams of a tool: what is printed cannot steer a terminal, and a standard output that fails is told as such."""
from __future__ import annotations

import io
import os
import sys
from typing import Any, Tuple

from .language import escaped

# The program ends with this status, too, where its output fails.
UNWRITTEN = 4


class Unwritable(Exception):
    """Standard output failed, by this number of the system."""

    def __init__(self, number: int):
        super().__init__(os.strerror(number))
        self.number = number

    def __reduce__(self) -> Tuple[Any, ...]:
        """How pickle and copy make it again."""
        return Unwritable, (self.number,)


class _Output(io.FileIO):
    """Standard output. Its faults are no OSError, so that none is taken for another file's, or passed over."""

    def write(self, data: Any) -> int:
        try:
            return super().write(data)
        except OSError as error:
            raise Unwritable(error.errno) from None


class _Errors(io.FileIO):
    """Standard error. Where it fails there is no place to tell that; the exit status remains."""

    def write(self, data: Any) -> int:
        try:
            return super().write(data)
        except OSError:
            return len(data)


class _Text(io.TextIOWrapper):
    """Text for a reader. What goes to its `buffer` goes out as it is."""

    def write(self, text: str) -> int:
        super().write(escaped(text, "\n\t"))
        if self.write_through:
            self.flush()
        return len(text)


def _text(raw: io.FileIO, old: Any, is_by_line: bool) -> _Text:
    """The stream in the place of the old one."""
    return _Text(io.BufferedWriter(raw), encoding=old.encoding, errors="backslashreplace", line_buffering=is_by_line,
                 write_through=old.write_through)


def _fill(number: int, mode: int) -> None:
    """Puts a file that fails in the place of a closed one, so that no file that is opened later gets its number."""
    found = os.open(os.devnull, mode)
    if found == number:
        os.set_inheritable(number, True)
    else:
        os.dup2(found, number)
        os.close(found)


def prepare() -> None:
    """Makes the streams of a tool."""
    if sys.stdin is None:
        _fill(0, os.O_WRONLY)
        sys.stdin = io.TextIOWrapper(io.BufferedReader(io.FileIO(0, "rb", closefd=False)))
    if sys.stdout is None:
        _fill(1, os.O_RDONLY)
        sys.stdout = io.TextIOWrapper(io.BufferedWriter(io.FileIO(1, "wb", closefd=False)))
    if sys.stderr is None:
        _fill(2, os.O_WRONLY)
        sys.stderr = io.TextIOWrapper(io.BufferedWriter(io.FileIO(2, "wb", closefd=False)))
    sys.stdout.flush()
    sys.stdout = _text(_Output(1, "wb", closefd=False), sys.stdout, bool(sys.stdout.line_buffering))
    sys.stderr = _text(_Errors(2, "wb", closefd=False), sys.stderr, True)


def give_up() -> None:
    """Lets what is still to be written go nowhere."""
    os.dup2(os.open(os.devnull, os.O_WRONLY), 1)
