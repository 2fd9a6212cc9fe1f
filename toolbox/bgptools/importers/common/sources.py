"""Files that come from elsewhere, as bytes or line by line. What is read has bounds: how much a packed file unpacks to,
how long a line is, and how large a text is that is held whole."""
from __future__ import annotations

import argparse
import bz2
import contextlib
import errno
import gzip
import io
import os
import re
import stat
import sys
import zlib
from io import BufferedReader
from typing import Any, BinaryIO, Iterator, Tuple, cast

from ...program.mistakes import Mistake

# So many bytes a packed file unpacks to, where `--most-unpacked` says nothing else.
MOST_UNPACKED = 2 * 10 ** 9
# So many bytes a line has: more than a route of a table can need.
LONGEST_LINE = 1 << 20
# So many bytes a text has that is held whole.
MOST_WHOLE = 32 * 10 ** 6
SIZE = re.compile("([1-9][0-9]{0,14})([KMG]?)")
UNITS = {"": 1, "K": 10 ** 3, "M": 10 ** 6, "G": 10 ** 9}


def size(text: str) -> int:
    """For a parser: a number of bytes, as `500M`, `2G` or `1000000`."""
    found = SIZE.fullmatch(text)
    if found is None:
        raise argparse.ArgumentTypeError("`%s` is no size: a number of bytes is expected, as 500M, 2G or 1000000" %
                                         text[:60])
    return int(found.group(1)) * UNITS[found.group(2)]


def add_words(made: argparse.ArgumentParser) -> None:
    """The word of the command line that bounds what is unpacked."""
    made.add_argument("--most-unpacked", type=size, default=MOST_UNPACKED, metavar="SIZE",
                      help="the most bytes that a packed file may unpack to, as 500M or 2G (2G); a greater one is a "
                           "mistake")


def named(path: str) -> str:
    """A file as it is told."""
    return "standard input" if path == "-" else path


class _Bounded(io.RawIOBase):
    """What a packed file unpacks to, counted; raises Mistake past a bound."""

    def __init__(self, file: Any, name: str, most: int) -> None:
        super().__init__()
        self.file, self.name, self.most, self.count = file, name, most, 0

    def readable(self) -> bool:
        return True

    def readinto(self, room: Any) -> int:
        found = self.file.read1(len(room))
        self.count += len(found)
        if self.count > self.most:
            raise Mistake("it unpacks to more than {:,} bytes; --most-unpacked SIZE reads a larger one, as 2G".format(
                self.most), self.name)
        room[:len(found)] = found
        return len(found)


class _Digested(io.RawIOBase):
    """A file whose bytes go through a hash of hashlib as they are read."""

    def __init__(self, file: Any, digest: Any) -> None:
        super().__init__()
        self.file, self.digest = file, digest

    def readable(self) -> bool:
        return True

    def readinto(self, room: Any) -> int:
        found = self.file.read1(len(room))
        self.digest.update(found)
        room[:len(found)] = found
        return len(found)


def _unpacked_by(kind: str, file: Any, name: str, most: int) -> BinaryIO:
    """The bytes of a file that is packed so: `gz`, `bz2`, or not at all."""
    if kind not in ("gz", "bz2"):
        return cast(BinaryIO, file)
    return cast(BinaryIO, io.BufferedReader(_Bounded(gzip.open(file) if kind == "gz" else bz2.open(file), name, most),
                                            1 << 16))


def _no_file(mode: int, is_named: bool) -> str:
    """Why a file of this mode is not read; empty where it is. What is `named` in another file has to be a regular
    one."""
    if stat.S_ISREG(mode) or not is_named and (stat.S_ISFIFO(mode) or stat.S_ISSOCK(mode)):
        return ""
    if stat.S_ISDIR(mode):
        return os.strerror(errno.EISDIR)
    if stat.S_ISBLK(mode) or stat.S_ISCHR(mode):
        return "it is a device"
    return "it is no regular file"


def opened(path: str, is_named: bool = False) -> BufferedReader:
    """A file, open; raises Mistake where it cannot be read, is a folder or a device that has no end.

    A file that another one names (`is_named`) has to be a regular one, and is opened without waiting for a writer."""
    try:
        handle = os.open(path, os.O_RDONLY | os.O_CLOEXEC | os.O_NOCTTY | (os.O_NONBLOCK if is_named else 0))
        why = _no_file(os.fstat(handle).st_mode, is_named)
        # A terminal is typed at, and the null device has an end.
        if why and (is_named or not os.isatty(handle) and os.path.realpath(path) != os.devnull):
            os.close(handle)
            raise Mistake("it cannot be read: " + why, path)
        return open(handle, "rb")
    except (OSError, ValueError) as error:
        raise Mistake(cannot(error), path) from None


def cannot(error: Exception) -> str:
    """What is told of a file that cannot be read."""
    return "it cannot be read: %s" % (getattr(error, "strerror", None) or error)


@contextlib.contextmanager
def _read(path: str, is_named: bool = False) -> Iterator[BufferedReader]:
    """A file, or standard input for `-`, open; what fails while it is read is a Mistake."""
    try:
        with contextlib.ExitStack() as open_now:
            is_standard = path == "-" and not is_named
            yield cast(BufferedReader, sys.stdin.buffer) if is_standard else open_now.enter_context(
                opened(path, is_named))
    except (OSError, EOFError, zlib.error) as error:
        raise Mistake(cannot(error), named(path)) from None


@contextlib.contextmanager
def unpacked(path: str, most: int = MOST_UNPACKED) -> Iterator[BinaryIO]:
    """The bytes of a file, or of standard input for `-`, unpacked by its first bytes, `most` of them; raises Mistake
    where it cannot be read, also while it is."""
    with _read(path) as file:
        first = file.peek(10)
        is_bzip = re.match(rb"BZh[1-9](1AY&SY|\x17rE8P\x90)", first)
        kind = "gz" if first.startswith(b"\x1f\x8b") else "bz2" if is_bzip else ""
        yield _unpacked_by(kind, file, named(path), most)


@contextlib.contextmanager
def _by_ending(path: str, most: int, is_named: bool = False, digest: Any = None) -> Iterator[BinaryIO]:
    """The bytes of a file, unpacked by its ending."""
    with _read(path, is_named) as file:
        read = file if digest is None else io.BufferedReader(_Digested(file, digest), 1 << 16)
        yield _unpacked_by(path.rpartition(".")[2], read, named(path), most)


def lines_in(path: str, most: int = MOST_UNPACKED, is_named: bool = False,
             digest: Any = None) -> Iterator[Tuple[int, str]]:
    """The lines of a text file, of a packed one (`most` bytes), or of standard input for `-`, each with its number.
    Once all are read, `digest`, a hash of hashlib, has the bytes of the file, packed as they are.

    A byte that is no UTF-8 is four characters, as `\\xff`. Raises Mistake where it cannot be read, and at a line that
    is longer than any. A file that another one names (`is_named`) has to be a regular one."""
    number = 0
    with _by_ending(path, most, is_named, digest) as file:
        while True:
            line = file.readline(LONGEST_LINE + 1)
            if not line:
                return
            number += 1
            if len(line) > LONGEST_LINE and not line.endswith(b"\n"):
                raise Mistake("the line has more than {:,} bytes".format(LONGEST_LINE), named(path), number)
            yield number, line.decode("utf-8", "backslashreplace").rstrip("\r\n")


def content_of(path: str, most: int = MOST_UNPACKED) -> bytes:
    """The bytes of a file, of a packed one (`most` of them), or of standard input for `-`; raises Mistake where it
    cannot be read, or is too large to be held whole."""
    with _by_ending(path, most) as file:
        return _whole(file, named(path))


def text_of(path: str, is_named: bool = False) -> str:
    """The text of a file that is not packed; a byte that is no UTF-8 is four characters, as `\\xff`. Raises Mistake
    where it cannot be read, or is too large to be held whole. A file that another one names (`is_named`) has to be a
    regular one."""
    with _read(path, is_named) as file:
        return _whole(file, named(path)).decode("utf-8", "backslashreplace")


def _whole(file: BinaryIO, name: str) -> bytes:
    """All bytes of a file; raises Mistake where they are too many."""
    content = file.read(MOST_WHOLE + 1)
    if len(content) > MOST_WHOLE:
        raise Mistake("it has more than {:,} bytes, and a text that is held whole has no more".format(MOST_WHOLE),
                      name)
    return content
