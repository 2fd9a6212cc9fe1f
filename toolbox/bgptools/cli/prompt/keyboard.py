"""Ctrl-C at a prompt: it stops what is at work, and never between a line for the program and what is kept of its reply."""
from __future__ import annotations

import contextlib
import os
import signal
from typing import Iterator

WAITING = b"\n    -- waiting for the reply; a second Ctrl-C does not wait"


class Keyboard:
    """Ctrl-C raises KeyboardInterrupt, once for each line that is typed.

    While it is held it waits for the next `check`; a second one does not."""

    def __init__(self) -> None:
        self.may_stop = self.is_held = self.is_pending = False

    def watch(self) -> None:
        """Takes Ctrl-C over."""
        signal.signal(signal.SIGINT, self._stop)

    def begin(self) -> None:
        """A line is about to be typed."""
        self.is_pending, self.may_stop = False, True

    def end(self) -> None:
        """What is done now is not stopped."""
        self.is_pending = self.may_stop = False

    def check(self) -> None:
        """A place where it can be stopped."""
        if self.is_pending:
            self.end()
            raise KeyboardInterrupt

    @contextlib.contextmanager
    def held(self) -> Iterator[None]:
        """While the program is asked, and its replies are kept."""
        self.is_held = True
        try:
            yield
        finally:
            self.is_held = False
        self.check()

    def _stop(self, *_: object) -> None:
        if self.may_stop and self.is_held and not self.is_pending:
            self.is_pending = True
            # Not by a stream, in whose midst this may come.
            with contextlib.suppress(OSError):
                os.write(2, WAITING)
        elif self.may_stop:
            self.end()
            raise KeyboardInterrupt
