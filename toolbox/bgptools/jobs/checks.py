"""A check of a log, in a worker of its own."""
from __future__ import annotations

import contextlib
import os
import subprocess
from typing import IO, Any, Dict

from ..program import location
from ..program.mistakes import Mistake

PIECE = 1 << 20


def verdict(log: int, size: int, end: bytes, beginning: Dict[str, Any]) -> bytes:
    """What `bgpsim replay` says of the first bytes of a log, with this end behind them.

    `log` is a file descriptor, whose place in the file stays. Mistake where nothing is said, or the log is shorter."""
    program = location.program()
    try:
        process = subprocess.Popen([program, "replay"], stdin=subprocess.PIPE, stdout=subprocess.PIPE,
                                   stderr=subprocess.PIPE, **beginning)
    except OSError as error:
        raise Mistake("the program cannot be run: %s" % error.strerror, program) from None
    assert process.stdin
    with contextlib.suppress(BrokenPipeError), process.stdin as given:
        _give(log, size, given)
        given.write(end)
    process.stdin = None
    out, err = (part.decode("latin-1").strip() for part in process.communicate())
    if process.returncode not in (0, 1) or not out:
        raise Mistake("`replay` ended with status %d%s" % (process.returncode, err and ": " + err), program)
    return str(out).encode("utf-8")


def _give(log: int, size: int, given: IO[bytes]) -> None:
    """Writes the first bytes of a log to a program."""
    place = 0
    while place < size:
        piece = os.pread(log, min(size - place, PIECE), place)
        if not piece:
            raise Mistake("the log has %d bytes, and %d are to be checked" % (place, size))
        given.write(piece)
        place += len(piece)
