"""The log of several who work on one network, as `bgpsim replay` reads it: written entry by entry, and taken up again.

docs/reference/program.md has its form. An open log is locked, and the system takes the lock back whatever ends its
writer."""
from __future__ import annotations

import contextlib
import os
import re
from dataclasses import dataclass
from typing import BinaryIO, Callable, Iterator, List, Optional

from ..program.language import REPORTS, readable
from ..program.mistakes import Mistake
from .journal import can_lock
from .private_file import opened_to_write

HEADER = "bgpsim log 2"
CALL = re.compile(r"@(0|[1-9][0-9]{0,2}) ([!-~]+(?: [!-~]+)*)")
SEATS = 256
LONGEST = 1048576
# `replay` reads no more lines.
MOST_LINES = 16000000


@dataclass(frozen=True)
class Entry:
    """A call: its seat, the command and its reply. `number` is its line in a log that was read."""
    seat: int
    line: str
    reply: List[str]
    number: int = 0

    @property
    def count(self) -> int:
        """How many lines of a log it is."""
        return 1 + len(self.reply)

    @property
    def size(self) -> int:
        """How many bytes of a log it is."""
        return len("@%d \n" % self.seat) + len(self.line) + sum(len(line) + len("= \n") for line in self.reply)


def is_whole(line: str, reply: List[str]) -> bool:
    """Whether these are all lines of the reply to a command."""
    is_report = line.split(" ")[0] in REPORTS and reply[:1] != [] and not reply[0].startswith("refused ")
    return bool(reply) and (not is_report or reply[-1].startswith("end "))


def text_of(entries: List[Entry]) -> bytes:
    """Entries as they stand in a log."""
    lines = [line for each in entries for line in ("@%d %s" % (each.seat, each.line), *map("= ".__add__, each.reply))]
    return "".join(line + "\n" for line in lines).encode("latin-1")


class Unkept(Mistake):
    """Nothing more can be answered, since the log cannot be written or read. It has what was answered."""


class Log:
    """A log that is open to be written, and locked. `tell` gets a word where others may read it. Mistake where it
    cannot be opened, is no regular file, or another has it."""

    def __init__(self, path: str, is_new: bool, tell: Callable[[str], None] = lambda _: None) -> None:
        self.path = path
        self.count, self.lines, self.size = 0, 0, 0
        try:
            self.file: BinaryIO = opened_to_write(path, is_new, tell)
        except FileExistsError:
            there = "it is there already: `--log %s` takes it up, or another name makes another one" % path
            raise Mistake(there, path) from None
        except (OSError, ValueError) as error:
            raise Mistake("it cannot be opened: %s" % (getattr(error, "strerror", None) or error), path) from None
        if not can_lock(self.file):
            self.file.close()
            raise Mistake("it is the log of a `share` that still runs", path)

    def content(self) -> BinaryIO:
        """What it has, to be read from its begin, by the handle that holds the lock. OSError where it cannot be."""
        file = os.fdopen(os.dup(self.file.fileno()), "rb")
        file.seek(0)
        return file

    def begin(self, reading: "Reading") -> None:
        """Goes on behind the last whole entry of what was read: what stands behind it goes."""
        self.count, self.lines, self.size = reading.count, reading.whole_lines, reading.whole
        try:
            os.ftruncate(self.file.fileno(), self.size)
        except OSError as error:
            raise Unkept("it cannot be written: %s" % error.strerror, self.path) from None
        if not self.size:
            self._write((HEADER + "\n").encode("latin-1"), 1)

    def add(self, entries: List[Entry]) -> None:
        """Writes entries: when it returns, the system has them, whatever ends this process. Raises Unkept where it
        cannot, and leaves none."""
        if entries:
            self._write(text_of(entries), sum(each.count for each in entries))
            self.count += len(entries)

    def end(self) -> None:
        """Writes the end, and closes the log."""
        if not self.file.closed:
            try:
                self._write(b"end %d\n" % self.count, 1)
                os.fsync(self.file.fileno())
            except OSError as error:
                raise Unkept("it cannot be written: %s" % error.strerror, self.path) from None
            finally:
                self.file.close()

    def has_room(self, lines: int) -> bool:
        """Whether so many lines and the end are read by `replay`."""
        return lines < MOST_LINES

    def _write(self, content: bytes, lines: int) -> None:
        write_all(self.file, content, self.size, self.path)
        self.size += len(content)
        self.lines += lines


def write_all(file: BinaryIO, content: bytes, size: int, path: str) -> None:
    """Writes content behind so many bytes of a file that is written at its end. Raises Unkept where it cannot, and
    takes away what was written of it, if the system lets it."""
    left = content
    try:
        while left:
            left = left[file.write(left):]
    except (OSError, ValueError) as error:
        with contextlib.suppress(OSError, ValueError):
            os.ftruncate(file.fileno(), size)
        raise Unkept("it cannot be written: %s" % (getattr(error, "strerror", None) or error), path) from None


class Reading:
    """A log that is read entry by entry, up to the last whole one. Mistake, with its line, where it is no log.

    `count`, `whole` and `whole_lines` are the entries, bytes and lines up to there; `cut` is what stands behind it,
    where the log ends in the midst of an entry."""

    def __init__(self, file: BinaryIO, path: str) -> None:
        self.file, self.path = file, path
        self.count = self.number = self.place = self.whole = self.whole_lines = 0
        self.is_ended = False
        self.cut = ""

    def entries(self) -> Iterator[Entry]:
        """Its entries, each whole."""
        line = self._line()
        if line not in (None, HEADER) or not HEADER.startswith(self.cut):
            raise Mistake("`%s` is expected" % HEADER, self.path, 1)
        entry = None if line is None else self._entry()
        while entry is not None:
            self.count += 1
            self._is_whole()
            yield entry
            entry = self._entry()

    def _is_whole(self) -> None:
        self.whole, self.whole_lines, self.cut = self.place, self.number, ""

    def _line(self) -> Optional[str]:
        """The next line; nothing where the log ends before the line does."""
        line = self.file.readline(LONGEST + 1)
        if not line.endswith(b"\n"):
            if len(line) > LONGEST:
                raise Mistake("a line of more than %d bytes" % LONGEST, self.path, self.number + 1)
            self._note_cut(line.decode("latin-1"))
            return None
        self.number += 1
        self.place += len(line)
        text = line[:-1].decode("latin-1")
        if self.number == 1:
            self._is_whole()
        else:
            self._note_cut(text)
        return text

    def _note_cut(self, line: str) -> None:
        self.cut = self.cut or line

    def _entry(self) -> Optional[Entry]:
        line = self._line()
        if line is None:
            return None
        found = CALL.fullmatch(line)
        if line == "end %d" % self.count:
            self._end()
            return None
        if found is None or int(found.group(1)) >= SEATS:
            wanted = "`%s`: a call is expected, or the end of %d calls" % (readable(line[:80]), self.count)
            raise Mistake(wanted, self.path, self.number)
        number, reply = self.number, self._reply(found.group(2))
        return None if reply is None else Entry(int(found.group(1)), found.group(2), reply, number)

    def _reply(self, command: str) -> Optional[List[str]]:
        reply: List[str] = []
        while not is_whole(command, reply):
            line = self._line()
            if line is None:
                return None
            if not line.startswith("= "):
                raise Mistake("`%s`: a line of the reply is expected" % readable(line[:80]), self.path, self.number)
            reply.append(line[2:])
        return reply

    def _end(self) -> None:
        """Nothing stands behind the end."""
        if self.file.read(1):
            raise Mistake("there is more behind the end of the log", self.path, self.number + 1)
        self.is_ended, self.cut = True, ""
