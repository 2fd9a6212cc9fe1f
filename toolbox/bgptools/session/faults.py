"""What went wrong inside the server, told on standard error: each kind once in a while, in one line."""
from __future__ import annotations

import contextlib
import os
import sys
import time
import traceback
from typing import Any, Callable, Dict, Tuple

from ..program.mistakes import Mistake

# The same kind of fault is told once in so many seconds, and so many kinds are kept apart.
QUIET_SECONDS, MOST_KINDS = 60.0, 100
Kind = Tuple[str, str, str]


def _print(text: str) -> None:
    try:
        print(text, file=sys.stderr, flush=True)
    except (OSError, ValueError):
        # There is no other place to tell it.
        pass


class Faults:
    """Tells faults, and counts those that it does not tell."""

    def __init__(self, tell: Callable[[str], None] = _print, clock: Callable[[], float] = time.monotonic) -> None:
        self.print, self.clock = tell, clock
        self.told: Dict[Kind, float] = {}
        self.untold: Dict[Kind, int] = {}

    def tell(self, where: str, fault: BaseException) -> None:
        """Tells that a fault came up in something, and at which line of the code. Raises nothing: it may be memory that
        is wanting."""
        with contextlib.suppress(Exception):
            self._tell(where, fault)

    def tell_cause(self, where: str, mistake: Mistake) -> None:
        """Tells the fault for which a request was not done, if it was one: a mistake alone is of who made it."""
        cause = mistake.__cause__
        if cause is not None and not isinstance(cause, Mistake):
            self.tell(where, cause)

    def _tell(self, where: str, fault: BaseException) -> None:
        kind = (where, type(fault).__name__, place_of(fault))
        now = self.clock()
        if kind not in self.told and len(self.told) >= MOST_KINDS:
            kind = ("other places", "faults of many kinds", "")
        if now - self.told.get(kind, now - QUIET_SECONDS) < QUIET_SECONDS:
            self.untold[kind] = self.untold.get(kind, 0) + 1
            return
        self.told[kind] = now
        more = self.untold.pop(kind, 0)
        self.print("fault in %s: %s%s%s" % (where, described(fault), kind[2] and " at " + kind[2],
                                            more and " (and %d more like it)" % more or ""))

    def of_loop(self, _: Any, context: Dict[str, Any]) -> None:
        """Tells what the event loop has caught: its handler of exceptions. Raises nothing, which would end the loop."""
        try:
            fault = context.get("exception")
            where = str(context.get("message", "the event loop"))[:200]
            self.tell("the event loop (%s)" % where, fault if isinstance(fault, BaseException) else RuntimeError(where))
        except Exception:  # pylint: disable=broad-except
            pass


def described(fault: BaseException) -> str:
    """A fault in a few words: its kind, and what it says."""
    said = " ".join(str(fault).split())[:200]
    return type(fault).__name__ + (": " + said if said else "")


def place_of(fault: BaseException) -> str:
    """The innermost line of this package that a fault passed; empty where there is none."""
    here = os.path.dirname(os.path.dirname(os.path.abspath(__file__)))
    frames = [each for each in traceback.extract_tb(fault.__traceback__) if each.filename.startswith(here)]
    return "%s:%d" % (os.path.relpath(frames[-1].filename, here), frames[-1].lineno or 0) if frames else ""
