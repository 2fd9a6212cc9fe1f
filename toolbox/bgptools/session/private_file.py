"""Files that a shared network keeps: regular ones, for their owner alone, opened so that nothing else can hang or be
followed."""
from __future__ import annotations

import os
import stat
from typing import BinaryIO, Callable, cast

from ..program.mistakes import Mistake

OTHERS = 0o077
KINDS = ((stat.S_ISDIR, "a folder"), (stat.S_ISFIFO, "a pipe"), (stat.S_ISSOCK, "a socket"),
         (stat.S_ISCHR, "a device"), (stat.S_ISBLK, "a device"))
# A pipe without a reader or a writer is not waited for, and a terminal does not become that of this process.
CAREFUL = os.O_NONBLOCK | os.O_NOCTTY | os.O_CLOEXEC


def opened_to_read(path: str) -> BinaryIO:
    """A regular file that is there. OSError where it cannot be opened, Mistake where it is something else."""
    return _regular(os.open(path, os.O_RDONLY | CAREFUL), path, "rb")


def opened_to_write(path: str, is_new: bool, tell: Callable[[str], None]) -> BinaryIO:
    """A file to be read, and written at its end, for this user alone. One that is there is opened unless `is_new`.
    Where others may read or write it, `tell` gets a word, and where it is this user's they may no more.

    FileExistsError where it is there and `is_new`, OSError where it cannot be opened, Mistake where it is no regular
    file, or a link to nothing or to another user's file."""
    flags = os.O_RDWR | os.O_APPEND | CAREFUL
    if not is_new:
        try:
            file = _regular(os.open(path, flags), path, "r+b")
        except FileNotFoundError:
            if os.path.islink(path):
                raise Mistake("it is a link to a file that is not there: give the name of a file", path) from None
        else:
            keep_to_owner(file, path, tell)
            return file
    made = os.open(path, flags | os.O_CREAT | os.O_EXCL, 0o600)
    return os.fdopen(made, "r+b", buffering=0)


def _regular(handle: int, path: str, mode: str) -> BinaryIO:
    """The file of a handle. Mistake where it is no regular one; then the handle is closed."""
    found = os.fstat(handle).st_mode
    if not stat.S_ISREG(found):
        os.close(handle)
        kind = next((name for fits, name in KINDS if fits(found)), "no file")
        raise Mistake("it is %s: a regular file is expected, or a new name" % kind, path)
    return cast(BinaryIO, os.fdopen(handle, mode, buffering=0))


def keep_to_owner(file: BinaryIO, path: str, tell: Callable[[str], None]) -> None:
    """Takes away what others may do with a file. Mistake where a link leads to another user's."""
    found = os.fstat(file.fileno())
    is_own = found.st_uid == os.geteuid()
    if not is_own and os.path.islink(path):
        file.close()
        raise Mistake("it is a link to the file of another user: give the name of a file", path)
    if found.st_mode & OTHERS:
        told = "others may read or write it (mode %04o)" % stat.S_IMODE(found.st_mode)
        if is_own:
            os.fchmod(file.fileno(), stat.S_IMODE(found.st_mode) & ~OTHERS)
            told += ": from now on its owner alone may"
        tell(str(Mistake(told, path)))
