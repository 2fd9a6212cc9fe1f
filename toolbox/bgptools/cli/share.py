"""One network that several engineers work on at once, each at a prompt by `join`; its log is proved by `replay`."""
from __future__ import annotations

import argparse
import contextlib
import os
import sys
from typing import List, Optional

from ..program.mistakes import Mistake
from ..program.script import read
from ..session import hub
from ..session.lifecycle import MOST_WORKERS, add_log, concluded, opened
from ..session.shared_network import Shared
from ..session.sockets import listening


def parser() -> argparse.ArgumentParser:
    """The words of the command line."""
    made = argparse.ArgumentParser(prog="share", description=(
        "Holds one running network at a Unix socket, for people who `join` it: each line of one is a call, and all "
        "calls stand in a log with a seat for each person and worker. Ctrl-C ends it, and gives the log to `bgpsim "
        "replay`."),
        epilog="The socket is for this user alone; no network address is offered. What was answered is in the log, "
               "also after a crash: `share --at SOCKET --log FILE` takes it up. Exit status: 0 `replay` says that the "
               "log is one of this machine; 1 it says something else; 2 a mistake, or the log cannot be written.")
    made.add_argument("script", nargs="?", metavar="SCRIPT",
                      help="a script that makes the network; - is standard input")
    made.add_argument("--at", metavar="SOCKET", required=True, help="where the socket is made")
    made.add_argument("--workers", type=int, default=0, metavar="N",
                      help="so many workers deliver what waits (0, at most %d)" % MOST_WORKERS)
    add_log(made)
    return made


def _say(path: str, shared: Shared) -> None:
    """Says where it is shared."""
    print("shared at %s, with %d calls so far in %s" % (path, shared.ledger.entries, shared.log.path))
    print("`join %s --as NAME` joins it; Ctrl-C ends it" % path)
    sys.stdout.flush()


def main(words: Optional[List[str]] = None) -> int:
    """The tool."""
    chosen = parser().parse_args(words)
    if not 0 <= chosen.workers <= MOST_WORKERS:
        raise Mistake("--workers %d: a number of 0 to %d is expected" % (chosen.workers, MOST_WORKERS))
    with listening(chosen.at) as line:
        try:
            shared = opened(chosen, [] if chosen.script is None else read(chosen.script))

            async def ready() -> None:
                _say(chosen.at, shared)
            try:
                number = hub.run(hub.Hub(shared), line, ready)
            except BaseException:
                shared.close()
                raise
        finally:
            with contextlib.suppress(FileNotFoundError):
                os.unlink(chosen.at)
    return concluded(shared, number)
