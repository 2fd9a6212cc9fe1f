"""Whether two ends take each other's first packets and OPEN messages: their TTL (RFC 5082), the hold time
(RFC 4271, 4.2) and the capabilities (RFC 5492)."""
from __future__ import annotations

from dataclasses import dataclass, field
from typing import Callable, Dict, NamedTuple, Optional, Tuple

from .configuration import NOWHERE, Config, Line, Neighbour

Number = Tuple[int, Line]


@dataclass
class Opening:
    """What an end sends first, and takes of the other one, each with the line that says so: the TTL, the hold time in
    seconds and the least one, and the capabilities that it has and that it asks for."""
    ttl: Number
    least_ttl: Number
    hold: Number
    least_hold: Number
    least_alive: Number
    has: Dict[str, Line] = field(default_factory=dict)
    asks: Dict[str, Line] = field(default_factory=dict)
    # By which part of the hold time that is agreed on it sends keepalives.
    alive_by: Tuple[int, int] = (1, 3)


class Refusal(NamedTuple):
    """Why an end does not take the other one: the line of each, and a sentence."""
    here: Line
    there: Line
    said: str


Openings = Callable[[Config, Neighbour, bool], Opening]


def refusal(one: Opening, other: Opening) -> Optional[Refusal]:
    """Why an end does not take what the other one sends; nothing where it does."""
    if other.ttl[0] < one.least_ttl[0]:
        return Refusal(one.least_ttl[1], other.ttl[1], "it takes packets with a TTL of %d and more, and the other end "
                       "sends %d" % (one.least_ttl[0], other.ttl[0]))
    agreed = min(one.hold[0], other.hold[0])
    if other.hold[0] < one.least_hold[0]:
        return Refusal(one.least_hold[1], other.hold[1], "it takes a hold time of %d seconds and more, and the other "
                       "end offers %d" % (one.least_hold[0], other.hold[0]))
    alive = one.alive_by[0] * agreed // one.alive_by[1]
    if alive < one.least_alive[0]:
        return Refusal(one.least_alive[1], other.hold[1], "it takes keepalives of %d seconds and more, and they come "
                       "to %d" % (one.least_alive[0], alive))
    lacking = next((name for name in one.asks if name not in other.has), None)
    if lacking is not None:
        return Refusal(one.asks[lacking], NOWHERE, "it asks for `%s`, which the other end does not have" % lacking)
    return None
