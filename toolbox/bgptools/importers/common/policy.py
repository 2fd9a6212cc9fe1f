"""Lists of rules of which the first that matches decides, put together exactly: a filter before a route map, a list
that denies, two matches at once."""
from __future__ import annotations

from typing import Iterator, List, NamedTuple, Optional, Set, Tuple, TypeVar, Union

from ...program.communities import shown
from ...program.language import contains, show_address

MOST_RULES = 256
Prefix = Tuple[int, int]
Value = TypeVar("Value")


class Match(NamedTuple):
    """What a rule is about: any, is or under a prefix, path or first with an AS, comm with a community."""
    kind: str
    of: Union[None, Prefix, int] = None

    def __str__(self) -> str:
        shown = "%s/%d" % (show_address(self.of[0]), self.of[1]) if isinstance(self.of, tuple) else self.of
        return self.kind if self.of is None else "%s %s" % (self.kind, shown)


class Action(NamedTuple):
    """What a rule does: it denies, or permits with settings."""
    is_permit: bool
    settings: Tuple[Tuple[str, str], ...] = ()

    def __str__(self) -> str:
        return "permit" + "".join(" %s=%s" % each for each in self.settings) if self.is_permit else "deny"


class Unsayable(Exception):
    """No list of rules says it."""


ANY, DENY, PERMIT = Match("any"), Action(False), Action(True)
# Rules: the first match decides; they end with `any`. A region is rules whose values say whether a route is in it.
Rules = List[Tuple[Match, Value]]
Region = Rules[bool]
NOTHING: Region = [(ANY, False)]
ALL: Region = [(ANY, True)]


def is_(where: Prefix) -> Match:
    """This prefix alone."""
    return Match("is", where)


def under(where: Prefix) -> Match:
    """This prefix and all within it."""
    return ANY if where[1] == 0 else Match("is" if where[1] == 32 else "under", where)


def both(one: Match, other: Match) -> Optional[Match]:
    """What both are about, nothing where no route is; raises Unsayable where no match says it."""
    if one == other or other.kind == "any":
        return one
    if one.kind == "any":
        return other
    if isinstance(one.of, tuple) and isinstance(other.of, tuple):
        return _both_prefixes(one, other)
    if "comm" in (one.kind, other.kind):
        raise Unsayable("%s and %s at once" % (_read(one), _read(other)))
    if one.of == other.of:
        return Match("first", one.of)
    if one.kind == other.kind == "first":
        return None
    raise Unsayable("%s and %s at once" % (one, other))


def _read(match: Match) -> str:
    """A match as it is read in what is told: a community in its halves."""
    return "comm " + shown(match.of) if match.kind == "comm" and isinstance(match.of, int) else str(match)


def _both_prefixes(one: Match, other: Match) -> Optional[Match]:
    longer, shorter = (one, other) if one.of[1] >= other.of[1] else (other, one)  # type: ignore[index]
    if not contains(shorter.of, longer.of):  # type: ignore[arg-type]
        return None
    if shorter.kind == "under":
        return longer
    # The shorter one is a single prefix, which the longer one holds only where they are the same.
    return shorter if longer.of == shorter.of else None


def covers(one: Match, other: Match) -> bool:
    """Whether each route of the other is one of this."""
    try:
        return both(one, other) == other
    except Unsayable:
        return False


def meet(one: Match, other: Match) -> bool:
    """Whether a route may be one of both."""
    try:
        return both(one, other) is not None
    except Unsayable:
        return True


def chosen(region: Region, inside: Rules[Value], outside: Rules[Value]) -> Rules[Value]:
    """The rules that decide by `inside` for what is in the region, and by `outside` for all else; raises Unsayable."""
    made: Rules[Value] = []
    for match, is_in in region:
        made += _within(match, inside if is_in else outside)
    return without_covered(made + outside)


def _within(match: Match, rules: Rules[Value]) -> Iterator[Tuple[Match, Value]]:
    """The rules for what the match is about."""
    for other, value in rules:
        common = both(match, other)
        if common is not None:
            yield common, value
        if common == match:
            return


def of_both(one: Region, other: Region) -> Region:
    """What is in both regions."""
    return chosen(one, other, NOTHING)


def without_covered(rules: Rules[Value]) -> Rules[Value]:
    """The rules without those that an earlier one leaves nothing for."""
    seen: Set[Match] = set()
    kept: Rules[Value] = []
    for match, value in rules:
        if not seen.intersection(_wider(match)):
            seen.add(match)
            kept.append((match, value))
    return kept


def _wider(match: Match) -> Iterator[Match]:
    """The match and all that cover it."""
    yield match
    yield ANY
    if match.kind == "first":
        yield Match("path", match.of)
    elif isinstance(match.of, tuple):
        value, length = match.of
        for shorter in range(1, length + 1):
            yield Match("under", (value >> (32 - shorter) << (32 - shorter), shorter))


def shortened(rules: Rules[Value]) -> Rules[Value]:
    """The rules without those that decide as the ones behind them do."""
    kept: Rules[Value] = []
    for match, value in reversed(rules):
        later = next((each for each in kept[::-1] if meet(each[0], match)
                      and (each[1] != value or covers(each[0], match))), None)
        if later is None or later[1] != value:
            kept.append((match, value))
    return kept[::-1]
