"""Who is captured: where the packets of each AS end, and where its route leads."""
from __future__ import annotations

from collections import Counter
from dataclasses import asdict, dataclass
from typing import Any, Dict, FrozenSet, List, Tuple

from .attack import FORGED, LEAK, LONGER, SAME
from .descent import Below, Offer
from .pairs import Pair
from .player import Choices, Played

# Where a route leads, or packets end: nowhere, at the victim, at the attacker.
NOWHERE, VICTIM, ATTACKER = range(3)
# A label has both: where the route of an AS leads three times, and where its packets end.
LABELS = range(9)
AS_IT_IS = tuple(LABELS)
# What has no route to the longer prefix goes by the victim's, to where the next AS sends it.
BY_THE_WHOLE = tuple(3 * VICTIM + label % 3 for label in LABELS)
CAUGHT = frozenset(label for label in LABELS if label // 3 == ATTACKER)


@dataclass
class Plane:
    """How many ASes are captured, kept by the victim, and without a route; victim and attacker are not counted."""
    captured: int
    kept: int
    disconnected: int


@dataclass
class Outcome:
    """What a hijack does, by packets (`data`) and by routes (`control`). `played` ASes were played in the program, the
    others decided below them. `mistake` says why a pair was not played."""
    data: Plane
    control: Plane
    played: int
    mistake: str = ""

    def as_json(self) -> Dict[str, Any]:
        """The numbers for a file."""
        return asdict(self)

    @classmethod
    def of_json(cls, found: Dict[str, Any]) -> "Outcome":
        """The outcome from a file; TypeError or KeyError where it is none."""
        return cls(Plane(**found["data"]), Plane(**found["control"]), int(found["played"]), str(found["mistake"]))

    @classmethod
    def failed(cls, mistake: str) -> "Outcome":
        """That of a pair that was not played."""
        return cls(Plane(0, 0, 0), Plane(0, 0, 0), 0, mistake)


def outcome_of(below: Below, played: Played, pair: Pair, kind: str) -> Outcome:
    """The outcome of a hijack that was played.

    A packet follows the longest prefix at each AS, and ends at the victim or the attacker, wherever it comes to one. In
    a leak it goes on to the victim: captured is who passes the attacker, and would not without the leak."""
    reading = _Reading(below, played, pair, kind)
    if kind == LONGER:
        reading.take(played.longer, AS_IT_IS, frozenset(LABELS))
        reading.take(played.whole, BY_THE_WHOLE)
    else:
        reading.take(played.whole, AS_IT_IS, CAUGHT if kind == SAME else frozenset())
    before = reading.labels
    if kind == LEAK:
        other = _Reading(below, played, pair, kind)
        other.take(played.before, AS_IT_IS)
        before = other.labels
    return _counted(reading, before, kind == LEAK, len(played.asns))


class _Reading:
    """The labels of all ASes, by place, for one pair."""

    def __init__(self, below: Below, played: Played, pair: Pair, kind: str) -> None:
        self.below, self.pair, self.kind = below, pair, kind
        self.played = {below.place[asn] for asn in played.asns}
        self.labels = [0] * len(below.asns)
        # Where packets end that come to an AS that was played.
        self.ends: Dict[int, int] = {pair.victim: VICTIM, pair.attacker: ATTACKER}

    def take(self, chosen: Choices, passed: Tuple[int, ...], refused: FrozenSet[int] = frozenset()) -> None:
        """Takes what was chosen for a prefix, the longer one first, and decides what is below."""
        offers: List[Offer] = []
        for asn, choice in sorted(chosen.items(), key=lambda each: len(each[1].path)):
            place = self.below.place[asn]
            end = self.ends.setdefault(asn, self.ends.get(choice.via, NOWHERE))
            if not self.labels[place]:
                self.labels[place] = 3 * (ATTACKER if self._is_caught(asn, choice.path) else VICTIM) + end
            offers.append(Offer(place, len(choice.path), choice.is_to_all))
        self.below.descend(offers, self.played, self.labels, passed, refused)

    def _is_caught(self, asn: int, path: Tuple[int, ...]) -> bool:
        """Whether the route of an AS that was played leads to the attacker. A forged or leaked one passes it."""
        if asn == self.pair.attacker:
            return True
        return self.pair.attacker in path if self.kind in (FORGED, LEAK) else path[-1:] == (self.pair.attacker,)


def _counted(reading: _Reading, before: List[int], is_leak: bool, played: int) -> Outcome:
    """How many ASes of each kind there are, but for victim and attacker."""
    found = Counter(zip(reading.labels, before))
    for asn in reading.pair:
        at = reading.below.place[asn]
        found[reading.labels[at], before[at]] -= 1
    planes = []
    for shift in (1, 3):
        ends = [0, 0, 0]
        for (label, earlier), count in found.items():
            end, was = label // shift % 3, earlier // shift % 3
            ends[VICTIM if is_leak and end == was == ATTACKER else end] += count
        planes.append(Plane(ends[ATTACKER], ends[VICTIM], ends[NOWHERE]))
    return Outcome(planes[0], planes[1], played)
