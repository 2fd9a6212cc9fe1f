"""The tokens that `join` was given, kept for the next time: by its token a person enters under the same name again.

Each is a file of its own, for this user alone, beside the journals of `play`. Its name is a digest of socket and name."""
from __future__ import annotations

import contextlib
import hashlib
import os
import pathlib
import tempfile
from typing import Optional

from .journal import folder

# So many are kept, and so many characters of one are read.
KEPT, LONGEST = 200, 64


def _place(socket: str, name: str) -> pathlib.Path:
    digest = hashlib.sha256(("%s\0%s" % (os.path.realpath(socket), name)).encode("utf-8", "surrogateescape"))
    return folder() / "tokens" / digest.hexdigest()


def stored(socket: str, name: str) -> Optional[str]:
    """The token that was given for a name at a socket; nothing where none is known."""
    try:
        with open(_place(socket, name), encoding="ascii") as file:
            return file.read(LONGEST).strip() or None
    except (OSError, UnicodeError):
        return None


def store(socket: str, name: str, token: str) -> str:
    """Keeps a token: empty, or why it cannot be kept."""
    place = _place(socket, name)
    if not place.is_absolute():
        return "there is no home folder"
    try:
        place.parent.mkdir(mode=0o700, parents=True, exist_ok=True)
        handle, part = tempfile.mkstemp(prefix=".part-", dir=place.parent)
        try:
            with open(handle, "w", encoding="ascii") as file:
                file.write(token + "\n")
            os.replace(part, place)
        except BaseException:
            with contextlib.suppress(FileNotFoundError):
                os.unlink(part)
            raise
        _forget_old(place.parent)
    except (OSError, UnicodeError) as error:
        return getattr(error, "strerror", None) or str(error)
    return ""


def _forget_old(place: pathlib.Path) -> None:
    """Takes away the oldest ones of too many."""
    found = sorted(place.iterdir(), key=lambda each: each.stat().st_mtime)
    for each in found[:-KEPT]:
        with contextlib.suppress(OSError):
            each.unlink()
