"""What `bgpsim replay` says of a log."""
from __future__ import annotations

import contextlib
import subprocess

from ..program import location
from ..program.mistakes import Mistake

PIECE = 1 << 20


def verdict(path: str, size: int, end: bytes) -> str:
    """What is said of so many bytes of a log, with this end behind them. Mistake where nothing is."""
    program = location.program()
    try:
        process = subprocess.Popen([program, "replay"], stdin=subprocess.PIPE, stdout=subprocess.PIPE,
                                   stderr=subprocess.PIPE, start_new_session=True)
    except OSError as error:
        raise Mistake("the program cannot be run: %s" % error.strerror, program) from None
    assert process.stdin
    with contextlib.suppress(BrokenPipeError), process.stdin as given, open(path, "rb") as file:
        while size:
            piece = file.read(min(size, PIECE))
            given.write(piece)
            size -= len(piece)
        given.write(end)
    process.stdin = None
    out, err = (part.decode("latin-1").strip() for part in process.communicate())
    if process.returncode not in (0, 1) or not out:
        raise Mistake("`replay` ended with status %d%s" % (process.returncode, err and ": " + err), program)
    return out
