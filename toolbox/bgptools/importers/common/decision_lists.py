"""Exact lists of rules for what the matches of two kinds say together, as a prefix and a community.

All routes are parted into kinds that no match tells apart. A rule is taken while all routes left that it matches are
treated alike (R. Rivest, Learning Decision Lists, Machine Learning 2, 1987); that finds a list wherever there is one.
Rules cannot say `not`, so the prefixes outside of some are spelled out: in general, or those that can occur.
"""
from __future__ import annotations

from typing import Any, Callable, Collection, Dict, Iterator, List, NamedTuple, Optional, Sequence, Set, Tuple

from ...program.language import contains
from .policy import (
    ALL, ANY, MOST_RULES, Match, Prefix, Region, Rules, Unsayable, Value, chosen, is_, of_both, shortened, under
)

# So many kinds of routes at most are looked at.
MOST_KINDS = 1 << 16
ROOT: Prefix = (0, 0)


def decided(conditions: Sequence[Region], inside: Rules[Value], outside: Rules[Value],
            known: Optional[Collection[Prefix]] = None) -> Tuple[Rules[Value], bool]:
    """The rules that decide by `inside` for what is in all regions, and by `outside` for all else; and whether they are
    exact for the prefixes alone that can occur. `known`: these prefixes, where they are known. Raises Unsayable."""
    try:
        region = ALL
        for each in conditions:
            region = of_both(region, each)
        return chosen(region, inside, outside), False
    except Unsayable as reason:
        why = reason
    for prefixes in (None,) if known is None else (None, known):
        try:
            return shortened(decision_list(conditions, inside, outside, prefixes)), prefixes is not None
        except TooMany:
            why = Unsayable("%s in at most %d rules" % (str(why).split(" in at most ")[0], MOST_RULES))
        except Unsayable:
            pass
    raise why


def decision_list(conditions: Sequence[Region], inside: Rules[Value], outside: Rules[Value],
                  known: Optional[Collection[Prefix]] = None) -> Rules[Value]:
    """The same rules by the kinds of routes; raises Unsayable, TooMany where they are more than a policy has."""
    kinds = Kinds([*conditions, inside, outside], known)
    met = kinds.all
    for each in conditions:
        met &= kinds.by_value(each).get(True, 0)
    wanted: Dict[Value, int] = {}
    for rules, where in ((inside, met), (outside, kinds.all & ~met)):
        for value, those in kinds.by_value(rules).items():
            wanted[value] = wanted.get(value, 0) | those & where
    return kinds.listed(wanted)


class TooMany(Unsayable):
    """There is a list of rules, and it is too long."""


class Choice(NamedTuple):
    """Matches that can stand next: the kinds of routes that one of them is about. `outside_of` is the prefix whose
    part outside of others they are, which is spelled out when it is taken."""
    where: int
    matches: Tuple[Match, ...]
    outside_of: Optional[Prefix] = None


class Kinds:
    """The kinds of routes that rules tell apart, as bits of a number: one for each class of prefixes and each
    combination of ASes and communities."""

    def __init__(self, lists: Sequence[Rules[Any]], known: Optional[Collection[Prefix]]) -> None:
        self.known = None if known is None else sorted(set(known))
        self.whole = sorted({ROOT} | _named(lists, "under"))
        self.single = sorted(_named(lists, "is"))
        self.classes = self._classes()
        self.groups = _grouped(lists)
        self.width = 0
        self.masks = self._attribute_masks()
        self.row = (1 << self.width) - 1
        self.every = sum(1 << self.width * at for at in range(len(self.classes)))
        self.all: int = (1 << self.width * len(self.classes)) - 1
        self.of_match = {match: mask * self.every for group, mask in self.masks for match in group}

    # Prefixes

    def _classes(self) -> List[Tuple[bool, Prefix]]:
        """The classes of prefixes: a single one, or those under one that are in no other class. Of known prefixes
        those that have one."""
        found = [(True, each) for each in self.single] + [(False, each) for each in self.whole]
        if self.known is not None:
            met = {(True, each) if each in set(self.single) else (False, self._holder(each)) for each in self.known}
            found = [each for each in found if each in met]
        return found

    def _holder(self, where: Prefix) -> Prefix:
        """The longest prefix of an `under` that holds it."""
        known = set(self.whole)
        value, length = where
        return next(each for each in ((value >> (32 - shorter) << (32 - shorter), shorter)
                                      for shorter in range(length, -1, -1)) if each in known)

    def _prefix_mask(self, match: Match) -> int:
        found, wanted = 0, match.of if isinstance(match.of, tuple) else ROOT
        for at, (is_single, where) in enumerate(self.classes):
            is_met = wanted == where and is_single if match.kind == "is" else contains(wanted, where)
            found |= self.row << self.width * at if is_met else 0
        return found

    def _outside(self, holder: Prefix) -> List[Match]:
        """Matches that are about just the prefixes of the class of those under a prefix."""
        if self.known is not None:
            single = set(self.single)
            return [is_(each) for each in self.known if each not in single and self._holder(each) == holder]
        holes = {each for each in self.whole if each != holder and contains(holder, each)}
        return list(_spelled(holder, holes, {each for each in self.single if contains(holder, each)}))

    # ASes and communities

    def _attribute_masks(self) -> List[Tuple[Tuple[Match, ...], int]]:
        """The groups of matches that are not about prefixes, each with the combinations in which one of them is met."""
        free = [group for group in self.groups if group[0].kind != "first"]
        firsts = [group for group in self.groups if group[0].kind == "first"]
        if (1 << len(free)) * (len(firsts) + 1) * len(self.classes) > MOST_KINDS:
            raise Unsayable("so many prefixes, ASes and communities together")
        # The one that a first AS is in a path by.
        needed = [next((at for at, group in enumerate(free) if Match("path", first[0].of) in group), None)
                  for first in firsts]
        masks = {group: 0 for group in self.groups}
        for bits in range(1 << len(free)):
            for first in range(-1, len(firsts)):
                need = needed[first] if first >= 0 else None
                if need is not None and not bits >> need & 1:
                    continue
                for group in [group for at, group in enumerate(free) if bits >> at & 1] + firsts[first:first + 1] * (
                        first >= 0):
                    masks[group] |= 1 << self.width
                self.width += 1
        return list(masks.items())

    # Rules

    def by_value(self, rules: Rules[Value]) -> Dict[Value, int]:
        """The kinds of routes for which rules have each of their values."""
        left, found = self.all, {}  # type: int, Dict[Value, int]
        for match, value in rules:
            here = left & self._mask(match)
            found[value] = found.get(value, 0) | here
            left &= ~here
        return found

    def _mask(self, match: Match) -> int:
        if match.kind == "any":
            return self.all
        if match not in self.of_match:
            self.of_match[match] = self._prefix_mask(match)
        return self.of_match[match]

    def _choices(self) -> List[Choice]:
        """All that can stand next, what takes fewest rules first."""
        found = [Choice(mask * self.every, group) for group, mask in self.masks]
        found += [Choice(self._mask(each), (each,)) for each in map(under, self.whole) if each != ANY]
        found += [Choice(self._mask(each), (each,)) for each in map(is_, self.single)]
        found.sort(key=lambda each: len(each.matches))
        return found + [Choice(self.row << self.width * at, (), where)
                        for at, (is_single, where) in enumerate(self.classes) if not is_single]

    def listed(self, wanted: Dict[Value, int]) -> Rules[Value]:
        """The rules that have the values that are wanted of each kind of routes; raises Unsayable."""
        return listed(self.all, wanted, self._choices(), self._outside)


def listed(kinds: int, wanted: Dict[Value, int], choices: Sequence[Choice],
           spelled: Callable[[Prefix], List[Match]]) -> Rules[Value]:
    """Rules of these choices that have the values that are wanted of kinds of routes; `spelled` gives the matches of a
    choice that is outside of prefixes. Raises Unsayable, TooMany."""
    left, made = kinds, []  # type: int, Rules[Value]
    while True:
        alike = _value_of(left, wanted)
        if alike:
            return made + [(ANY, alike[0])]
        taken = next(((each, value) for each in choices if each.where & left
                      for value in _value_of(each.where & left, wanted)), None)
        if taken is None:
            raise Unsayable("these matches together")
        choice, value = taken
        matches = choice.matches if choice.outside_of is None else spelled(choice.outside_of)
        made += [(match, value) for match in matches]
        if len(made) >= MOST_RULES:
            raise TooMany("these matches together")
        left &= ~choice.where


def _value_of(where: int, wanted: Dict[Value, int]) -> List[Value]:
    """The one value that is wanted of these kinds of routes, or nothing."""
    return [value for value, those in wanted.items() if not where & ~those][:1]


def _named(lists: Sequence[Rules[Any]], kind: str) -> Set[Prefix]:
    """The prefixes that rules name by this kind of match."""
    return {match.of for rules in lists for match, _ in rules if match.kind == kind and isinstance(match.of, tuple)}


def _grouped(lists: Sequence[Rules[Any]]) -> List[Tuple[Match, ...]]:
    """Matches that are not about prefixes, those together that stand beside each other in all lists with one value."""
    places: Dict[Match, List[Tuple[int, int]]] = {}
    for which, rules in enumerate(lists):
        run, before = 0, None  # type: int, Optional[Tuple[str, Any]]
        for match, value in rules:
            here = (match.kind, value)
            run, before = run + (here != before), here
            if match.kind in ("path", "first", "comm"):
                places.setdefault(match, []).append((which, run))
    found: Dict[Tuple[object, ...], List[Match]] = {}
    for match in sorted(places, key=lambda each: (each.kind != "path", str(each))):
        # First ASes of one group are in a path by the same group.
        same = tuple(places.get(Match("path", match.of), ())) if match.kind == "first" else ()
        found.setdefault((match.kind, tuple(places[match]), same), []).append(match)
    return [tuple(group) for group in found.values()]


def _spelled(where: Prefix, holes: Set[Prefix], single: Set[Prefix]) -> Iterator[Match]:
    """Matches for all prefixes under one but those under the holes, and the single ones."""
    if where in holes:
        return
    inside = {each for each in holes if contains(where, each)}
    alone = {each for each in single if contains(where, each)}
    if not inside and not alone:
        yield under(where)
        return
    value, length = where
    if where not in alone:
        yield is_(where)
    if length < 32:
        for part in (value, value | 1 << (31 - length)):
            yield from _spelled((part, length + 1), inside, alone)
