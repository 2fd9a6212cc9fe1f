"""What happens on a shared network, until those who are joined are told."""
from __future__ import annotations

import math
from typing import Any, Dict, List, Optional, Tuple

Event = Dict[str, Any]
# How many events there are, and how many changes the last one has.
Mark = Tuple[int, int]


class Events:
    """What happened since it was asked for the last time, in order. Changes up to the step `known` are told to nobody:
    they are read from a log."""

    def __init__(self, known: float = 0) -> None:
        self.events: List[Event] = []
        self.known = known

    def tell(self, event: str, text: str, more: Optional[Dict[str, Any]] = None) -> None:
        """Something happened that is told by a text, and more beside it."""
        self.events.append({**(more or {}), "event": event, "text": text})

    def changed(self, change: Dict[str, Any]) -> None:
        """A change was made: those one after another are one event."""
        if change["step"] <= self.known:
            return
        if not self.events or self.events[-1]["event"] != "changes":
            self.events.append({"event": "changes", "changes": []})
        self.events[-1]["changes"].append(change)

    def taken(self) -> List[Event]:
        """What happened since this was asked the last time."""
        events, self.events = self.events, []
        return events

    def mark(self) -> Mark:
        """Where the events are now, so that `back` can go there."""
        last = self.events[-1] if self.events else {}
        return len(self.events), len(last.get("changes", ()))

    def back(self, mark: Mark) -> None:
        """Takes away what was told since a mark."""
        count, changes = mark
        del self.events[count:]
        if changes and len(self.events) == count:
            del self.events[-1]["changes"][changes:]


NOTHING_TOLD = math.inf
