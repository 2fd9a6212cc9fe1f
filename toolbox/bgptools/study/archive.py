"""Archives of studies, .tar.gz: the same files make the same bytes; of others, plain files alone are taken."""
from __future__ import annotations

import gzip
import io
import tarfile
import zlib
from typing import Any, BinaryIO, Dict, Tuple, cast

from ..program.language import escaped
from ..program.mistakes import Mistake
from . import paths

MOST_FILES = 20000
# So many bytes all files have, where `--most-unpacked` says nothing else.
MOST_BYTES = 500 * 10 ** 6
KINDS = {tarfile.SYMTYPE: "a symbolic link", tarfile.LNKTYPE: "a link", tarfile.DIRTYPE: "a folder",
         tarfile.CHRTYPE: "a device", tarfile.BLKTYPE: "a device", tarfile.FIFOTYPE: "a FIFO"}
FAULTS = (OSError, EOFError, zlib.error, tarfile.TarError, ValueError, ArithmeticError)


def packed(top: str, files: Dict[str, bytes]) -> bytes:
    """The archive of these files below a folder: sorted, of no time and nobody."""
    made = io.BytesIO()
    with tarfile.open(fileobj=made, mode="w", format=tarfile.USTAR_FORMAT) as archive:
        for path in sorted(files):
            member = tarfile.TarInfo("%s/%s" % (top, path))
            member.size, member.mode = len(files[path]), 0o644
            archive.addfile(member, io.BytesIO(files[path]))
    told = io.BytesIO()
    with gzip.GzipFile("", "wb", 9, told, mtime=0) as file:
        file.write(made.getvalue())
    return told.getvalue()


class _Bounded:
    """What an archive unpacks to, counted; raises Mistake past a bound."""

    def __init__(self, file: Any, path: str, most: int) -> None:
        self.file, self.path, self.most, self.left = file, path, most, most

    def read(self, size: int) -> bytes:
        """At most so many bytes."""
        found: bytes = self.file.read(min(size, self.left + 1))
        self.left -= len(found)
        if self.left < 0:
            raise Mistake("it unpacks to more than {:,} bytes; --most-unpacked SIZE reads a larger one, as 2G".format(
                self.most), self.path)
        return found


def unpacked(path: str, most: int) -> Tuple[str, Dict[str, bytes]]:
    """The folder of an archive, and its files by their paths below that. Nothing is written.

    Mistake for what is no archive, for anything but plain files with plain names in one folder, and past a bound."""
    found: Dict[str, bytes] = {}
    tops = set()
    try:
        with gzip.open(path, "rb") as file:
            archive = tarfile.open(fileobj=cast(BinaryIO, _Bounded(file, path, most)), mode="r|")
            for member in archive:
                top, name = _place(member, path)
                tops.add(top)
                if name in found or len(tops) > 1 or len(found) == MOST_FILES:
                    raise Mistake("`%s/%s`: at most %d files are expected, each once, in one folder" % (
                        top, name, MOST_FILES), path)
                content = archive.extractfile(member)
                found[name] = content.read() if content else b""
    except FAULTS as error:
        raise Mistake("no archive of `bundle`: %s" % (getattr(error, "strerror", None) or error), path) from None
    if not found:
        raise Mistake("no archive of `bundle`: it has no files", path)
    folders = {name[:at] for name in found for at, letter in enumerate(name) if letter == "/"}
    for name in sorted(folders & set(found)):
        raise Mistake("`%s` is a file and a folder" % name, path)
    return tops.pop(), found


def _place(member: tarfile.TarInfo, path: str) -> Tuple[str, str]:
    """The folder and the path of a member. Mistake for one that is no plain file."""
    shown = escaped(member.name[:120])
    if member.type not in (tarfile.REGTYPE, tarfile.AREGTYPE) or member.issparse() or member.pax_headers:
        raise Mistake("`%s` is %s: plain files alone are expected" % (shown, KINDS.get(member.type, "no plain file")), path)
    top, slash, name = member.name.partition("/")
    if not slash or not paths.is_plain(top) or not paths.is_plain(name):
        raise Mistake("`%s` is no path of plain names in a folder" % shown, path)
    return top, name
