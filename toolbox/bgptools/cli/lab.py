"""A page in a browser on one running network, for one, for several who work on it together, or for a class."""
from __future__ import annotations

import argparse
import contextlib
import os
import resource
import shutil
import signal
import sys
import tempfile
from typing import TYPE_CHECKING, List, Optional, Tuple

from ..program import libraries
from ..program.mistakes import Mistake
from ..program.script import Line, read
from ..session import hub
from ..session.lifecycle import BESIDE_SOCKET, MOST_WORKERS, add_log, concluded, opened
from ..session.roles import LOOK, TEACH, WORK
from ..session.shared_network import Shared
from ..session.sockets import listening
from ..web.lesson import notes_of

if TYPE_CHECKING:
    from ..web.server import Server

# So many files may be open, where the system allows it: three roles' connections, and some.
DESCRIPTORS = 4096


def parser() -> argparse.ArgumentParser:
    """The words of the command line."""
    made = argparse.ArgumentParser(prog="lab", description=(
        "Serves a page on this machine alone, and prints its addresses: the picture of SCRIPT's network, in which what "
        "is clicked offers its commands, a router's tables, and a slider over all steps. Pages and `join` at the socket "
        "see one network. Ctrl-C ends it, and gives the log to `bgpsim replay`."),
        epilog="There is one address for who teaches, one for who works, and with --present one for who looks. Each has "
               "a secret in it, and the server binds to 127.0.0.1. Exit status: 0 `replay` says that the log is one of "
               "this machine; 1 it says something else; 2 a mistake, or the log cannot be written.")
    made.add_argument("script", nargs="?", metavar="SCRIPT",
                      help="a script that makes the network; - is standard input")
    made.add_argument("--port", type=int, default=0, metavar="N", help="the port (a free one)")
    made.add_argument("--present", action="store_true",
                      help="print another address, whose pages follow what the teacher shows, and change nothing")
    made.add_argument("--at", metavar="SOCKET", help="where the socket for `join` is made (in a folder that goes)")
    made.add_argument("--workers", type=int, default=1, metavar="N",
                      help="so many workers deliver, when they are let go (1, at most %d)" % MOST_WORKERS)
    add_log(made)
    return made


def _serve(chosen: argparse.Namespace, port: "Server", shared: Shared, lines: List[Line]) -> int:
    """Serves pages and terminals until a signal comes: its number."""
    from ..web.lab import Lab
    shared.workers.is_going = False
    held = hub.Hub(shared)
    lab = Lab(held, notes_of(lines, shared.run.lines), chosen.present)

    async def ready() -> None:
        port.start(lab)
        for name, role in [("lab", TEACH), ("to work", WORK)] + ([("to look", LOOK)] if chosen.present else []):
            print("%s: %s" % (name, port.address(role)))
        print("`join %s --as NAME` joins it; Ctrl-C ends it" % chosen.at)
        sys.stdout.flush()
    try:
        with listening(chosen.at) as line:
            return hub.run(held, line, ready)
    finally:
        with contextlib.suppress(FileNotFoundError):
            os.unlink(chosen.at)


def _checked(chosen: argparse.Namespace) -> argparse.Namespace:
    if not 1 <= chosen.workers <= MOST_WORKERS:
        raise Mistake("--workers %d: a number of 1 to %d is expected" % (chosen.workers, MOST_WORKERS))
    if not 0 <= chosen.port <= 65535:
        raise Mistake("--port %d: a number of 0 to 65535 is expected" % chosen.port)
    return chosen


def _place(chosen: argparse.Namespace) -> Optional[str]:
    """Where socket and log are, where they were not named: a new folder, which goes in the end."""
    if chosen.at is not None:
        return None
    folder = tempfile.mkdtemp(prefix="lab-")
    chosen.at = os.path.join(folder, "socket")
    if chosen.log is None:
        print("the log goes when the lab ends: `--log FILE` keeps it, and so does `record` in the page",
              file=sys.stderr)
    return folder


def _clear(folder: str, log: Optional[str], is_asked: bool) -> None:
    """Takes the folder away that was made for this run. Where nobody asked for the end the record stays, which is
    told."""
    record = os.path.join(folder, "socket" + BESIDE_SOCKET)
    if is_asked or log is not None or not os.path.exists(record):
        shutil.rmtree(folder, ignore_errors=True)
    else:
        print("the record is kept: %s (`lab --log %s` goes on with it)" % (record, record), file=sys.stderr)


def _more_descriptors() -> None:
    soft, hard = resource.getrlimit(resource.RLIMIT_NOFILE)
    wanted = DESCRIPTORS if hard == resource.RLIM_INFINITY else min(DESCRIPTORS, hard)
    if soft != resource.RLIM_INFINITY and soft < wanted:
        resource.setrlimit(resource.RLIMIT_NOFILE, (wanted, hard))


def _run(chosen: argparse.Namespace, lines: List[Line]) -> Tuple[int, int]:
    """All from the first to the last: the exit status, and the signal that ended it."""
    from ..web.server import Server
    with contextlib.closing(Server(chosen.port)) as port:
        shared = opened(chosen, lines)
        try:
            number = _serve(chosen, port, shared, lines)
        except BaseException:
            shared.close()
            raise
        return concluded(shared, number), number


def main(words: Optional[List[str]] = None) -> int:
    """The tool."""
    chosen = _checked(parser().parse_args(words))
    lines = [] if chosen.script is None else read(chosen.script)
    libraries.need("lab")
    _more_descriptors()
    folder = _place(chosen)
    number = None
    try:
        status, number = _run(chosen, lines)
        return status
    finally:
        if folder is not None:
            _clear(folder, chosen.log, number == signal.SIGINT)
