"""What a user has to mend, and how a tool ends."""
from __future__ import annotations

import errno
import signal
import sys
from typing import Any, Callable, List, Optional, Tuple, Type

from . import streams

CHANGED, WRONG, DISAGREES = 1, 2, 3


class Mistake(Exception):
    """Something that the user has to mend, with its file and line where it has one."""

    def __init__(self, text: str, file: Optional[str] = None, line: Optional[int] = None):
        super().__init__(text)
        self.text, self.file, self.line = text, file, line

    def __str__(self) -> str:
        place = [str(part) for part in (self.file, self.line) if part is not None]
        return ": ".join([":".join(place), self.text] if place else [self.text])

    def __reduce__(self) -> Tuple[Any, ...]:
        """How pickle and copy make it again: without `__init__`, whose words are not those of `args` in all kinds."""
        return _again, (type(self), self.args), self.__dict__


def _again(kind: Type[Mistake], words: Tuple[Any, ...]) -> Mistake:
    return kind.__new__(kind, *words)


class Ended(BaseException):
    """A signal asks for the end. It is raised, so that what was begun is cleaned away."""

    def __init__(self, number: int):
        super().__init__(number)
        self.number = number


def _end(number: int, _: object) -> None:
    raise Ended(number)


def ended(body: Callable[[List[str]], int]) -> int:
    """The exit status of a tool's body: its own, or 2 after a mistake, which is told on standard error.

    It is 4 where standard output cannot be written, which is told, 141 where its reader has gone, and 128 with the number of the signal
    that ended it."""
    streams.prepare()
    for number in (signal.SIGTERM, signal.SIGHUP):
        if signal.getsignal(number) == signal.SIG_DFL:
            signal.signal(number, _end)
    try:
        status = _status(body)
        sys.stdout.flush()
        return status
    except streams.Unwritable as fault:
        streams.give_up()
        if fault.number == errno.EPIPE:
            return 128 + signal.SIGPIPE
        print("standard output: it cannot be written: %s" % fault, file=sys.stderr)
        return streams.UNWRITTEN
    except KeyboardInterrupt:
        print("stopped", file=sys.stderr)
        return 128 + signal.SIGINT
    except Ended as end:
        return 128 + end.number


def _status(body: Callable[[List[str]], int]) -> int:
    try:
        return body(sys.argv[1:])
    except Mistake as mistake:
        print(mistake, file=sys.stderr)
        return WRONG
    except SystemExit as end:
        # The call was mistaken, or asked for help: argparse has told it.
        return int(end.code or 0)
