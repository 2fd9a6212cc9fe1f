"""Which of its eligible routes a router chooses: the nine filters of docs/reference/language.md (RFC 4271, 9.1.2.2).

The program alone says which routes a router has, and how they stand after import. A search over sets of such routes
asks here: the program would have to be brought to each set. `test_all_states_properties` compares both."""
from __future__ import annotations

from dataclasses import dataclass
from functools import cached_property
from typing import Callable, Dict, Iterable, List, Optional, Tuple

from ..program.language import by_address, neighbour
from ..program.language_table import ORIGINS
from ..program.reasons import FILTER_NAMES
from ..program.replies import Attributes

MED = FILTER_NAMES.index("med")


@dataclass(frozen=True)
class Candidate:
    """An eligible route of a router, as it stands after import: from `self` or a peer, with the IGP cost to its
    NEXT_HOP, its identifier and the address of the peer."""
    source: str
    attributes: Attributes
    is_external: bool
    cost: int
    ident: str
    peer: str

    def value(self, name: str) -> int:
        """What a filter compares, so that less is better."""
        return _VALUES[name](self)

    @cached_property
    def values(self) -> Tuple[int, ...]:
        """What all filters compare, in their order."""
        return tuple(map(self.value, FILTER_NAMES))

    @cached_property
    def neighbour(self) -> Optional[int]:
        """The neighbouring AS."""
        return neighbour(self.attributes.path)


_VALUES: Dict[str, Callable[[Candidate], int]] = {
    "pref": lambda each: -int(each.attributes.pref),
    "length": lambda each: each.attributes.length,
    "origin": lambda each: ORIGINS.index(each.attributes.origin),
    "med": lambda each: 0 if each.attributes.med == "-" else int(each.attributes.med),
    "external": lambda each: 0 if each.is_external else 1,
    "cost": lambda each: each.cost,
    "ident": lambda each: by_address(each.ident),
    "clusters": lambda each: 0 if each.attributes.clusters == "-" else each.attributes.clusters.count(",") + 1,
    "peer": lambda each: by_address(each.peer)}


def beats_by_med(one: Candidate, other: Candidate, is_med_always: bool) -> bool:
    """Whether a route has a lower MED than another one, and the two are compared by it."""
    return one.values[MED] < other.values[MED] and (is_med_always or one.neighbour == other.neighbour)


def _left(routes: List[Candidate], at: int, is_med_always: bool) -> List[Candidate]:
    """Those that the filter of this number leaves."""
    if at == MED:
        return [each for each in routes if not any(beats_by_med(other, each, is_med_always) for other in routes)]
    least = min(each.values[at] for each in routes)
    return [each for each in routes if each.values[at] == least]


def chosen(routes: Iterable[Candidate], is_med_always: bool) -> Optional[Candidate]:
    """The route that a router chooses of these; none where there are none."""
    left = list(routes)
    for at in range(len(FILTER_NAMES)):
        if len(left) < 2:
            break
        left = _left(left, at, is_med_always)
    return left[0] if left else None


def always_beats(one: Candidate, other: Candidate, beside: Optional[List[Candidate]], is_med_always: bool) -> bool:
    """Whether a router that has both never chooses the second, whichever others of these it has; `beside` is nothing
    where any others may come.

    A route of lower MED may take the first away from a comparison by later filters, and leave the second."""
    if one.values[:MED] != other.values[:MED]:
        return one.values[:MED] < other.values[:MED]
    if beats_by_med(one, other, is_med_always):
        return True
    if beats_by_med(other, one, is_med_always) or one.values[MED + 1:] >= other.values[MED + 1:] or beside is None:
        return False
    return not any(each.values[:MED] == one.values[:MED] and beats_by_med(each, one, is_med_always) for each in beside)
