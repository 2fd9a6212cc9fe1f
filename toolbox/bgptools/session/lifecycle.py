"""The beginning and the end of a shared network: its log is opened and taken up, and in the end given to `replay`."""
from __future__ import annotations

import argparse
import contextlib
import os
import signal
import sys
from typing import List

from ..program.mistakes import CHANGED, Mistake
from ..program.script import Line
from . import replay
from .seats import BESIDE
from .shared_network import Shared

BESIDE_SOCKET = ".log"
MOST_WORKERS = 64
# A log has so many bytes where no other bound is given, and at least so many.
MOST_LOG, LEAST_LOG = 1000000000, 1000


def add_log(made: argparse.ArgumentParser) -> None:
    """The words about the log, and about deliveries."""
    made.add_argument("--log", metavar="FILE",
                      help="the log; one that is there is taken up (a new one, SOCKET%s)" % BESIDE_SOCKET)
    made.add_argument("--most-log", type=int, default=MOST_LOG, metavar="BYTES", help=(
        "the log has at most so many bytes: from then on edits are refused, and all stays (%d)" % MOST_LOG))
    made.add_argument("--most", type=int, metavar="N", help=(
        "workers pause after so many deliveries without an edit (ten thousand and more, by the size of the network)"))


def _told(text: str) -> None:
    print(text, file=sys.stderr)


def opened(chosen: argparse.Namespace, lines: List[Line]) -> Shared:
    """The network, with its log taken up or its script played. A new log of a script that cannot be played goes."""
    if chosen.most_log < LEAST_LOG:
        raise Mistake("--most-log %d: a number of at least %d is expected" % (chosen.most_log, LEAST_LOG))
    path = chosen.at + BESIDE_SOCKET if chosen.log is None else chosen.log
    is_there = os.path.lexists(path)
    shared = Shared(path, chosen.workers, chosen.log is None, chosen.most, _told, most_log=chosen.most_log)
    try:
        if chosen.script is not None and shared.ledger.entries:
            raise Mistake("it has %d calls already: no script is played into it" % shared.ledger.entries, path)
        shared.play(lines)
    except BaseException:
        shared.close()
        for each in [] if is_there else [path, path + BESIDE]:
            with contextlib.suppress(FileNotFoundError):
                os.unlink(each)
        raise
    return shared


def concluded(shared: Shared, number: int) -> int:
    """Ends the log, and says what `replay` says of it: the exit status."""
    shared.end()
    print("%d calls in %s" % (shared.log.count, shared.log.path))
    if number != signal.SIGINT:
        return 128 + number
    said = replay.verdict(shared.log.path, shared.log.size, b"")
    print("replay: " + said)
    return 0 if said.startswith("ok ") else CHANGED
