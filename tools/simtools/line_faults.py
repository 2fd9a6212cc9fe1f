"""Allocation failure injection by lines: copies of the program try lines, and in each another allocation fails, by
line_faults.c; it needs cc."""
from __future__ import annotations

import contextlib
import os
import pathlib
import re
import subprocess
import tempfile
from typing import Iterator, List, NamedTuple, Sequence

from .commands import Missing

SOURCE = pathlib.Path(__file__).resolve().with_name("line_faults.c")
TOLD = re.compile(rb"([0-9]+) ([0-9]+) ([0-9]+) ([01]) ([0-9]+)\n")


class Copy(NamedTuple):
    """What a copy of the program wrote, how many allocations were made at its first line, whether one of these
    failed, and the status that waiting for it gave. `before` is what the program itself had written since the last
    copy."""
    before: bytes
    out: bytes
    made: int
    is_refused: bool
    status: int


class Tried(NamedTuple):
    """The copies, what the program itself wrote behind the last one, its exit status, and the rest of standard
    error."""
    copies: List[Copy]
    rest: bytes
    status: int
    err: bytes

    def own(self) -> bytes:
        """All that the program itself wrote."""
        return b"".join(copy.before for copy in self.copies) + self.rest


def block(number: int, lines: bytes) -> bytes:
    """What has a copy try these lines; its allocation of the number fails at the first of them; with 0 none does."""
    return b"refuse %d\n%sdone\n" % (number, lines)


def tried(library: str, words: Sequence[str], text: bytes) -> Tried:
    """Runs a program on lines and blocks."""
    with tempfile.TemporaryFile() as given, tempfile.TemporaryFile() as out:
        given.write(text)
        given.seek(0)
        ran = subprocess.run(words, stdin=given, stdout=out, stderr=subprocess.PIPE,
                             env={**os.environ, "LD_PRELOAD": library})
        out.seek(0)
        return read(out.read(), ran.stderr, ran.returncode)


def read(out: bytes, err: bytes, status: int) -> Tried:
    """What the streams of such a run say."""
    copies: List[Copy] = []
    last = 0
    for one in TOLD.finditer(err):
        first, end, made, is_refused, waited = map(int, one.groups())
        copies.append(Copy(out[last:first], out[first:end], made, bool(is_refused), waited))
        last = end
    return Tried(copies, out[last:], status, TOLD.sub(b"", err))


@contextlib.contextmanager
def library() -> Iterator[str]:
    """line_faults.c as a library. Missing where there is no cc."""
    with tempfile.TemporaryDirectory() as folder:
        path = os.path.join(folder, "line_faults.so")
        try:
            subprocess.run(["cc", "-O1", "-shared", "-fPIC", "-o", path, str(SOURCE), "-ldl"], check=True)
        except FileNotFoundError:
            raise Missing("there is no cc, which %s needs: a C compiler has it" % SOURCE.name) from None
        yield path
