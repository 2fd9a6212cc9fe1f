"""What the expressions of BIRD's filters are: values, what of them is known, and what sets of them are as matches of
rules."""
from __future__ import annotations

from typing import Any, Collection, List, NamedTuple, Optional, Tuple

from ...program.language import address, contains
from ..common.configuration import NOWHERE, Item, Prefix, masked
from ..common.expressions import is_like
from ..common.policy import ALL, NOTHING, Match, Region, Unsayable, is_, under
from ..common.regions import MOST_OF_ONE, prefix_matches
from .filters import Net, Pattern, Span


class Symbol(NamedTuple):
    """What a filter asks of the route: an attribute, or a part of one."""
    name: str


class SetOf(NamedTuple):
    """A set, with its elements as values."""
    elements: Tuple[Any, ...]


class Pair(NamedTuple):
    """A community of two halves, each a number or a span of them."""
    high: Any
    low: Any


class Mask(NamedTuple):
    """A mask of paths."""
    elements: Tuple[Any, ...]


def always(holds: bool) -> Region:
    return ALL if holds else NOTHING


def as_told(value: Any) -> str:
    """A value as it is told."""
    told = {"bgp_path.len": "the length of a path", "net.len": "the length of a prefix", "bgp_path.last": "the last AS "
            "of a path", "bgp_large_community": "large communities", "bgp_ext_community": "extended communities"}
    return told.get(value.name, "`%s`" % value.name) if isinstance(value, Symbol) else "`%s`" % (value,) \
        if isinstance(value, (int, str)) else "this value"


def reckoned(sign: str, left: Any, right: Any) -> int:
    if not isinstance(left, int) or not isinstance(right, int) or sign == "/" and right == 0:
        raise Unsayable("a number that is reckoned from the route's")
    found = {"+": left + right, "-": left - right, "*": left * right, "/": left // (right or 1)}[sign]
    if not 0 <= found < 2 ** 32:
        raise Unsayable("a number that is less than 0 or more than 4294967295")
    return found


def spread(value: Any, least: int) -> List[int]:
    """The numbers that a number or a span is; raises Unsayable where they are too many."""
    if isinstance(value, Span) and isinstance(value.low, int) and isinstance(value.high, int):
        if not least <= value.low <= value.high < 2 ** 32:
            raise Unsayable("the numbers %d to %d" % (value.low, value.high))
        if value.high - value.low < MOST_OF_ONE:
            return list(range(value.low, value.high + 1))
        raise Unsayable("more than %d numbers at once" % MOST_OF_ONE)
    if isinstance(value, int) and not isinstance(value, bool) and least <= value < 2 ** 32:
        return [value]
    raise Unsayable("any number at all" if isinstance(value, Span) else "%s as a number" % as_told(value))


def communities_in(value: Any) -> List[int]:
    """The communities that two halves are; raises Unsayable."""
    if not isinstance(value, Pair):
        raise Unsayable("large and extended communities")
    halves = [(high, low) for high in spread(value.high, 0) for low in spread(value.low, 0)]
    if len(halves) > MOST_OF_ONE:
        raise Unsayable("more than %d communities at once" % MOST_OF_ONE)
    if any(half > 65535 for both in halves for half in both):
        raise Unsayable("a community with a half of more than 65535")
    return [high << 16 | low for high, low in halves]


def is_in(left: Any, right: Any) -> bool:
    """Whether a value is in a set, or a prefix in another; raises Unsayable."""
    if isinstance(left, Net) and isinstance(right, Net):
        return contains(masked(*right), left)
    if isinstance(left, Net) and isinstance(right, SetOf):
        return any(_is_met(left, _pattern(each)) for each in right.elements)
    if isinstance(left, str) and isinstance(right, str):
        return is_like(left, right)
    if isinstance(left, str) and isinstance(right, Net) and address(left) is not None:
        return contains(masked(*right), (address(left) or 0, 32))
    if isinstance(right, SetOf) and isinstance(left, (int, str)):
        return any(left == each or isinstance(each, Span) and isinstance(left, int) and isinstance(each.low, int)
                   and isinstance(each.high, int) and each.low <= left <= each.high for each in right.elements)
    raise Unsayable("%s in %s" % (as_told(left), as_told(right)))


def _pattern(value: Any) -> Pattern:
    if isinstance(value, Net):
        return Pattern(value, value.length, value.length)
    if not isinstance(value, Pattern):
        raise Unsayable("prefixes in a set of something else")
    return value


def _is_met(net: Net, pattern: Pattern) -> bool:
    """Whether a pattern is about a prefix: their bits are the same as far as both have some."""
    common = min(net.length, pattern.where.length)
    has_length = pattern.least <= net.length <= pattern.most
    return has_length and masked(net.value, common) == masked(pattern.where.value, common)


def prefixes(wanted: Any, known: Optional[Collection[Prefix]]) -> Tuple[Region, bool]:
    """What a prefix, or a set of patterns, is about, and whether that is exact for the prefixes alone that can occur,
    which are named one by one; raises Unsayable. `known`: these prefixes, where they are known."""
    if isinstance(wanted, Net):
        return [(under(masked(*wanted)), True)] + NOTHING, False
    patterns = [_pattern(each) for each in wanted.elements]
    try:
        return [(match, True) for each in patterns for match in _matches(each)] + NOTHING, False
    except Unsayable:
        if known is None:
            raise
    return [(is_(where), True) for where in sorted(known) if any(_is_met(Net(*where), each) for each in patterns)] + \
        NOTHING, True


def _matches(pattern: Pattern) -> List[Match]:
    """Matches that are about just the prefixes of a pattern; raises Unsayable."""
    value, length = pattern.where
    shorter: List[Prefix] = [masked(value, each) for each in range(pattern.least, min(length, pattern.most + 1))]
    found = [is_(each) for each in shorter]
    if pattern.most >= length:
        item = Item(True, NOWHERE, masked(value, length), max(pattern.least, length), pattern.most)
        found += prefix_matches(item)
    return found


def expression_of_mask(mask: Mask) -> str:
    """A mask of paths as an expression of POSIX; raises Unsayable."""
    parts = [{"*": "((^| )[0-9]+)*", "?": "(^| )[0-9]+"}.get(each, "") if isinstance(each, str) else
             "(^| )" + _any_of(each) for each in mask.elements]
    if "" in parts:
        raise Unsayable("this mask of paths")
    return "^%s$" % "".join(parts)


def expression_of_last(wanted: Any) -> str:
    """Paths that end with an AS, or with one of a set; raises Unsayable."""
    return "(^| )%s$" % _any_of(wanted)


def _any_of(wanted: Any) -> str:
    elements = wanted.elements if isinstance(wanted, SetOf) else (wanted,)
    return "(%s)" % "|".join(str(asn) for each in elements for asn in spread(each, 1))
