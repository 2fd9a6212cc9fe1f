"""What a worker and its programs take while it works, looked at from a thread of its own."""
from __future__ import annotations

import threading
from typing import Callable, Dict, Optional

from . import confinement

# In seconds.
EVERY = 0.05


class Watch:
    """Ends the worker where it and its programs take too much. `tell` is given why, before."""

    def __init__(self, limits: Dict[str, int], tell: Callable[[str], None]) -> None:
        self.limits, self.tell = limits, tell
        self.is_working, self.is_idle = threading.Event(), threading.Event()
        # Who holds it knows that the worker does not begin or end to work meanwhile.
        self.lock = threading.Lock()
        threading.Thread(target=self._watch, daemon=True).start()

    def begin(self) -> None:
        """The worker begins to work."""
        with self.lock:
            self.is_idle.clear()
            self.is_working.set()

    def end(self) -> None:
        """The worker has its answer, and tells it next."""
        with self.lock:
            self.is_working.clear()
            self.is_idle.set()

    def is_large(self) -> bool:
        """Whether the worker has grown so much that a new one should take its place."""
        return 2 * confinement.resident(confinement.descendants()) > self.limits["memory"]

    def excess(self) -> Optional[str]:
        """What is too much, in words; nothing where all is within the limits."""
        processes = confinement.descendants()
        if len(processes) > self.limits["processes"]:
            return "it has more than %d processes" % self.limits["processes"]
        if confinement.resident(processes) > self.limits["memory"]:
            return "it has more than %d MB of memory" % (self.limits["memory"] >> 20)
        return None

    def _watch(self) -> None:
        while True:
            self.is_working.wait()
            found = self.excess()
            with self.lock:
                if found is not None and self.is_working.is_set():
                    self.tell(found)
                    confinement.end_all()
            self.is_idle.wait(EVERY)
