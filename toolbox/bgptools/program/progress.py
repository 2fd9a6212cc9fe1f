"""How far long work is, and how long it will take."""
from __future__ import annotations

import time
from typing import TYPE_CHECKING, Optional

from . import display
from .output import Progress

if TYPE_CHECKING:
    from rich.progress import Progress as Bar


class Clock:
    """Tells how many tasks are done, and how long the others will take: by a bar, or in words if there is no rich.

    `before` tasks were done earlier."""

    def __init__(self, count: int, before: int) -> None:
        self.count, self.before, self.done, self.began = count, before, before, time.monotonic()
        self.progress = Progress()
        self.bar: Optional[Bar] = None

    def tell(self) -> None:
        """One more is done."""
        self.done += 1
        if not self.progress.is_due():
            return
        self.bar = self.bar or self._bar()
        if self.bar:
            self.bar.update(self.bar.task_ids[0], completed=self.done, refresh=True)
        else:
            left = (time.monotonic() - self.began) / (self.done - self.before) * (self.count - self.done)
            self.progress.show("%d of %d, about %s left" % (self.done, self.count, span(left)))

    def _bar(self) -> "Optional[Bar]":
        made = display.bar()
        if made:
            made.add_task("", total=self.count, completed=self.before)
            made.start()
        return made

    def end(self) -> None:
        """Takes away what is shown."""
        if self.bar:
            self.bar.stop()
        self.progress.done()


def span(seconds: float) -> str:
    """A time as it is read."""
    whole = int(seconds + 0.5)
    hours, minutes, left = whole // 3600, whole // 60 % 60, whole % 60
    return "%d:%02d:%02d" % (hours, minutes, left) if hours else "%d:%02d" % (minutes, left)
