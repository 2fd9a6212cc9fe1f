"""A finding of a check, and how serious its kind is."""
from __future__ import annotations

from dataclasses import dataclass
from typing import Iterable, List, Optional, Tuple

from ..program.language import by_address
from ..program.replies import Trace

# The kinds, the most serious first: what each is called, and whether it is a note, which does not count as wrong.
KINDS = {
    "oscillation": "does not converge", "leak": "leak", "invariant": "broken invariant", "loop": "forwarding loop",
    "black-hole": "black hole", "next-hop": "next hop without a way", "partition": "partition",
    "lacking": "missing route", "session": "session down", "states": "several stable states",
    "single-point": "single point of failure", "single-session": "one session alone", "transit": "transit"}
NOTES = ("single-session", "transit")
ORDER = {kind: at for at, kind in enumerate(KINDS)}


@dataclass(frozen=True)
class Finding:
    """One thing that is wrong: `text` says what, with names, and `look` what to look at. `count` is how many packets,
    routes, sessions or orders it is about, of which larger ones come first."""
    kind: str
    text: str
    look: str
    count: int = 1
    router: Optional[str] = None
    prefixes: Tuple[str, ...] = ()
    way: Optional[Trace] = None

    @property
    def is_note(self) -> bool:
        """Whether it is told without being wrong by itself."""
        return self.kind in NOTES


def in_order(found: Iterable[Finding]) -> List[Finding]:
    """Findings by how serious they are: by kind, then the largest first, then by router."""
    return sorted(found, key=lambda each: (ORDER[each.kind], -each.count, by_address(each.router) if each.router else 0,
                                           each.prefixes))
