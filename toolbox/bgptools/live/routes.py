"""A chosen route as a real router shows it."""
from __future__ import annotations

from typing import NamedTuple, Optional, Tuple


class LiveRoute(NamedTuple):
    """The route that a router uses. `peer` is the address that it came from, empty for its own; `path` is written as in
    the command language, `-` for none. `med` and `communities` are nothing where the answer does not have them; a MED
    that is absent is -1. `is_bgp` is false for a route of another protocol."""
    prefix: str
    peer: str
    next_hop: str
    path: str
    med: Optional[int]
    preference: Optional[int]
    communities: Optional[Tuple[int, ...]]
    is_bgp: bool = True
