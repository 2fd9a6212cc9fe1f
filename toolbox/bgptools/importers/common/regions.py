"""Entries of prefix lists and as-path lists as regions of rules."""
from __future__ import annotations

import re
from dataclasses import dataclass, field
from typing import Collection, Dict, List, Optional, Set, Tuple

from ...program.language import contains, number, show_address
from .configuration import Item
from .policy import ALL, ANY, NOTHING, Match, Prefix, Region, Unsayable, is_, under

# So many rules at most stand for one entry of a prefix list.
MOST_OF_ONE = 32
# What is told of rules that name prefixes one by one.
EXACT_FOR = "its rules are exact for the %d prefixes that can come there by the files; convert again with others, or " \
    "write rules for them"


@dataclass
class World:
    """What is known of all ASes: the neighbours of each, those that are fed by hand, those that put themselves into
    paths more than once, and where maps of each set communities: on the way in or out, or inside it. `origins` are the
    prefixes of each, once these are found; `given` all communities that maps set. `unsaid` is what becomes of what no
    rule says: it is left out (`skip`), or decides all that comes to it (`deny`, `permit`)."""
    neighbours: Dict[int, Set[int]] = field(default_factory=dict)
    fed: Set[int] = field(default_factory=set)
    prepending: Set[int] = field(default_factory=set)
    marking: Dict[int, Set[str]] = field(default_factory=dict)
    origins: Optional[Dict[int, Set[Prefix]]] = None
    given: Set[int] = field(default_factory=set)
    unsaid: str = "skip"

    def prefixes(self, place: Place) -> Optional[Set[Prefix]]:
        """The prefixes that can occur there; nothing where these are not known: an AS by which routes may come is fed,
        or none originates any."""
        asns = self.sources(place)
        if asns is None or self.origins is None:
            return None
        return {where for asn in asns for where in self.origins.get(asn, ())} or None

    def sources(self, place: Place) -> Optional[Set[int]]:
        """The ASes by which routes may come there; nothing where one of them is fed."""
        start, barred = (place.other, place.asn) if place.is_from_outside else (place.asn, place.other)
        # A route that went through the AS that it comes to is dropped as a loop.
        left = {barred} - self.fed - {start}
        found, waiting = {start}, [start]
        while waiting:
            here = waiting.pop()
            if here in self.fed:
                return None
            around = self.neighbours.get(here, set()) - found - left
            found |= around
            waiting += around
        return found

    def is_bare(self, place: Place) -> bool:
        """Whether all routes there are known to come without communities: none of the ASes by which they may come is
        fed, or sets any before."""
        start, barred = (place.other, place.asn) if place.is_from_outside else (place.asn, place.other)
        # A route that went through the AS that it comes to is dropped as a loop.
        seen, waiting = {start} if barred in self.fed | {start} else {start, barred}, [start]
        while waiting:
            here = waiting.pop()
            if here in self.fed or self.marking.get(here, set()) - ({"out"} if here == place.asn else set()):
                return False
            around = self.neighbours.get(here, set()) - seen
            seen |= around
            waiting += around
        return True

    def is_own_bare(self, asn: int) -> bool:
        """Whether an AS's own routes are known to have no communities inside of it."""
        return "inside" not in self.marking.get(asn, set())


@dataclass(frozen=True)
class Place:
    """Where a policy stands: the router's AS and the neighbour's, the way, and whether FRR sends communities."""
    asn: int
    other: int
    way: str
    is_sent: bool = True

    @property
    def is_external(self) -> bool:
        return self.asn != self.other

    @property
    def is_from_outside(self) -> bool:
        return self.is_external and self.way == "in"


def prefix_matches(item: Item) -> List[Match]:
    """Matches that are about just the prefixes of an entry; raises Unsayable."""
    value, length = item.where
    if item.is_wild:
        shorter = [each for each in range(length) if value >> (32 - each) << (32 - each) == value]
        return [under(item.where)] + [is_((value, each)) for each in shorter]
    if item.most == 32 and item.least - length <= 5:
        return [under(each) for each in parts(item.where, item.least)]
    if item.most < 32 and 2 ** (item.most - length + 1) - 2 ** (item.least - length) <= MOST_OF_ONE:
        return [is_(part) for each in range(item.least, item.most + 1) for part in parts(item.where, each)]
    raise Unsayable("prefixes of the lengths %d to %d alone" % (item.least, item.most))


def prefix_region(item: Item, known: Optional[Collection[Prefix]]) -> Tuple[Region, bool]:
    """What an entry of a prefix list is about, and whether that is exact for the prefixes alone that can occur, which
    are named one by one; raises Unsayable."""
    try:
        return [(match, True) for match in prefix_matches(item)] + NOTHING, False
    except Unsayable:
        if known is None:
            raise
    within = sorted(each for each in known if contains(item.where, each))
    inside = [each for each in within if item.least <= each[1] <= item.most]
    outside = [each for each in within if each not in inside]
    if len(outside) <= len(inside):
        return [(is_(each), False) for each in outside] + [(under(item.where), True)] + NOTHING, True
    return [(is_(each), True) for each in inside] + NOTHING, True


def parts(where: Prefix, length: int) -> List[Prefix]:
    """The parts of a prefix that have this length."""
    return [(where[0] + (each << (32 - length)), length) for each in range(2 ** (length - where[1]))]


def path_region(said: str, world: World, place: Place) -> Region:
    """What an expression of an as-path list is about; raises Unsayable."""
    text = re.sub(r"^\^?\.\*", "", re.sub(r"\.\*\$?$", "", said))
    if text == "":
        return ALL
    if text == "^$":
        return NOTHING if place.is_from_outside else [(Match("first", asn), False)
                                                      for asn in sorted(world.neighbours.get(place.asn, ()))] + ALL
    found = re.fullmatch(r"([\^_])\(?([0-9]+(?:\|[0-9]+)*)\)?_", text)
    if found and all(number(each, 1) for each in found.group(2).split("|")) and ("(" in text) >= ("|" in text):
        return [(Match("first" if found.group(1) == "^" else "path", int(each)), True)
                for each in found.group(2).split("|")]
    alone = re.fullmatch(r"\^([0-9]+)(\(_\1\)\*)?\$", text)
    if alone and number(alone.group(1), 1):
        return _alone(int(alone.group(1)), bool(alone.group(2)), world)
    raise Unsayable("other paths than those with an AS (`_N_`), with a first one (`^N_`), with none (`^$`) or one "
                    "alone (`^N$`)")


def _alone(asn: int, may_repeat: bool, world: World) -> Region:
    """Paths of this AS alone: those that begin with it, and have none of its neighbours."""
    if asn in world.fed or asn not in world.neighbours:
        raise Unsayable("AS %d alone, since AS %d has no file, and what may stand behind it in a path is not known" % (
            asn, asn))
    if asn in world.prepending and not may_repeat:
        raise Unsayable("AS %d once, which puts itself into paths more often, since rules do not count" % asn)
    return [(Match("path", each), False) for each in sorted(world.neighbours[asn] - {asn})] + [(Match("first", asn),
        True), (ANY, False)]


def shown(where: Prefix) -> str:
    """A prefix as text."""
    return "%s/%d" % (show_address(where[0]), where[1])
