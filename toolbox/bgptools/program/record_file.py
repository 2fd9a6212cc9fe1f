"""A file of results: each stands there as a line of JSON as soon as it is known, once and whole; a run can go on."""
from __future__ import annotations

import fcntl
import json
import os
import sys
from typing import Any, Dict, Optional

from .mistakes import Mistake
from .provenance import UNKNOWN, Provenance


class RecordFile:
    """Results that are kept in a file, or in none where `path` is None.

    Its first line says of what it is, by the word `what`, as `sweep`, by `about`, a digest, and which program played.
    `more` stands there for a reader. `read` is called with each further line. Mistake where the file is of something
    else, which `others` describes, or of another program, or is there and not to be gone on with."""

    def __init__(self, path: Optional[str], what: str, others: str, about: str, is_resumed: bool, program: Provenance,
                 more: Optional[Dict[str, Any]] = None) -> None:
        self.path, self.what, self.others = path, what, others
        self.head: Dict[str, Any] = {what: 1, "about": about, "program": program.as_json(), **(more or {})}
        self.file = -1 if path is None else self._opened(path, is_resumed)
        if self.file >= 0:
            self._begin()

    def read(self, found: Dict[str, Any]) -> None:
        """Takes a line that was kept; raises ValueError, TypeError, KeyError or AttributeError where it is none."""
        raise NotImplementedError

    def _opened(self, path: str, is_resumed: bool) -> int:
        try:
            file = os.open(path, os.O_RDWR | os.O_CREAT | (0 if is_resumed else os.O_EXCL), 0o666)
            fcntl.lockf(file, fcntl.LOCK_EX | fcntl.LOCK_NB)
            return file
        except FileExistsError:
            raise Mistake("it is there already: --resume goes on with it", path) from None
        except (BlockingIOError, PermissionError) as error:
            told = "it cannot be written, or another %s writes it: %s" % (self.what, error.strerror)
            raise Mistake(told, path) from None
        except (OSError, ValueError) as error:
            raise Mistake("it cannot be written: %s" % (getattr(error, "strerror", None) or error), path) from None

    def _begin(self) -> None:
        """Reads what is there, and cuts off a last line that was not written to its end."""
        with open(self.file, "rb", closefd=False) as read:
            content = read.read()
        whole = content[:content.rfind(b"\n") + 1]
        lines = whole.split(b"\n")[:-1]
        for number, line in enumerate(lines, 1):
            self._take(number, line)
        if not lines and content and not self._line(self.head).startswith(content):
            raise Mistake("no file of a %s" % self.what, self.path)
        if len(content) > len(whole):
            os.ftruncate(self.file, len(whole))
            print("%s: its last line was not whole, and was taken away" % self.path, file=sys.stderr)
        os.lseek(self.file, 0, os.SEEK_END)
        if not lines:
            self.write(self.head)

    def _take(self, number: int, line: bytes) -> None:
        try:
            found = json.loads(line)
            if number == 1:
                self._check(found)
            else:
                self.read(found)
        except (ValueError, TypeError, KeyError, AttributeError):
            raise Mistake("no line of a %s's results" % self.what, self.path, number) from None

    def _check(self, found: Dict[str, Any]) -> None:
        """Takes the first line of a file of results. Programs of one digest are the same, whatever their commits."""
        if any(found.get(name) != self.head[name] for name in (self.what, "about")):
            raise Mistake("it has the results of another %s: %s" % (self.what, self.others), self.path, 1)
        there, here = (each.get("digest", UNKNOWN) for each in (found.get("program", {}), self.head["program"]))
        if there != here or here == UNKNOWN:
            raise Mistake("it has the results of another program, of digest %s, and this one has %s: "
                          "name that program by PROGRAM=, or begin another file" % (there, here), self.path, 1)

    @staticmethod
    def _line(value: Dict[str, Any]) -> bytes:
        return (json.dumps(value) + "\n").encode()

    def write(self, value: Dict[str, Any]) -> None:
        """Keeps a line."""
        if self.file < 0:
            return
        try:
            left = self._line(value)
            while left:
                left = left[os.write(self.file, left):]
        except OSError as error:
            raise Mistake("it cannot be written: %s" % error.strerror, self.path) from None

    def close(self) -> None:
        """Nothing more is kept."""
        if self.file >= 0:
            os.close(self.file)
