"""Communities as FRR has them: their names, what an entry of a community list is about, and what a map sets."""
from __future__ import annotations

import re
from typing import Dict, Iterable, List, NamedTuple, Optional, Tuple

from ...program.communities import read
from ..common.configuration import Config, Item, Line, short
from ..common.expressions import finds_nothing
from ..common.policy import ANY, NOTHING, Match, Region, Unsayable

# In a standard list this one is any route.
INTERNET = 0
NAMES: Dict[str, int] = {
    "internet": INTERNET, "graceful-shutdown": 0xFFFF0000, "accept-own": 0xFFFF0001,
    "route-filter-translated-v4": 0xFFFF0002, "route-filter-v4": 0xFFFF0003,
    "route-filter-translated-v6": 0xFFFF0004, "route-filter-v6": 0xFFFF0005, "llgr-stale": 0xFFFF0006,
    "no-llgr": 0xFFFF0007, "accept-own-nexthop": 0xFFFF0008, "blackhole": 0xFFFF029A, "no-export": 0xFFFFFF01,
    "no-advertise": 0xFFFFFF02, "local-AS": 0xFFFFFF03, "no-peer": 0xFFFFFF04}
# What FRR does by itself with a route that carries one of these, and no router does here.
HEEDED: Dict[int, str] = {
    NAMES["graceful-shutdown"]: "FRR gives a route that comes with it from another AS preference 0; here it means "
    "nothing. Write `rule ROUTER PEER in comm %d permit pref=0` first" % NAMES["graceful-shutdown"],
    NAMES["accept-own"]: "FRR may take a route with it back that is its own; here it means nothing",
    NAMES["llgr-stale"]: "FRR prefers a route with it least; here it means nothing",
    NAMES["blackhole"]: "FRR adds no-advertise to a route that comes with it, and drops the packets; here it means "
    "nothing. Write `rule ROUTER PEER in comm %d permit add=%d` first" % (NAMES["blackhole"], NAMES["no-advertise"]),
    NAMES["no-peer"]: "a route with it may be kept from some neighbours (RFC 3765); here it means nothing"}


def numbers_of(text: str) -> Optional[Tuple[int, ...]]:
    """The communities that words name, each once, in order; nothing where a word is none."""
    found = [NAMES.get(word, read(word)) for word in text.split(" ")]
    known = sorted({each for each in found if each is not None})
    return None if None in found else tuple(known)


def tell_heeded(config: Config, line: Line, numbers: Iterable[int]) -> None:
    """Tells what FRR does with a route that carries one of these."""
    for each in numbers:
        if each in HEEDED:
            config.tell(line, "%s: %s" % (short(line.text), HEEDED[each]))


def named_in(item: Item) -> Tuple[int, ...]:
    """The communities of an entry, in an expression those that stand there by their names."""
    return item.numbers or tuple(number for name, number in NAMES.items() if name in item.said)


# What a map sets

class Given(NamedTuple):
    """What `set community` gives, and whether a route keeps what it came with."""
    numbers: Tuple[int, ...]
    is_additive: bool


GIVES_NONE = Given((), False)


def given(said: str) -> Optional[Given]:
    """What is behind `set community`; nothing where FRR does not take it."""
    if said == "none":
        return GIVES_NONE
    words = said.split(" ")
    numbers = numbers_of(" ".join(word for word in words if word != "additive"))
    return None if numbers is None else Given(numbers, "additive" in words)


def unsaid(said: Given, is_bare: bool) -> str:
    """Why a rule of an external session does not set it, or nothing. `is_bare`: all routes come without communities."""
    if not said.is_additive and not is_bare:
        return ("FRR takes the communities away that a route came with, and no rule does; the line is left out. Write "
                "%s where routes come with none" % _added(said))
    if len(said.numbers) > 1:
        return "a rule adds one community, and these are %d; the line is left out. Write %s, whichever decides" % (
            len(said.numbers), _added(said))
    return ""


def _added(said: Given) -> str:
    """The settings of rules that add one of the communities."""
    return " or ".join("`add=%d`" % each for each in said.numbers)


# What a list is about

def matches_of(item: Item) -> List[Match]:
    """Matches that together are about the routes of an entry; raises Unsayable."""
    if INTERNET in item.numbers:
        return [ANY]
    if len(item.numbers) > 1:
        raise Unsayable("several communities at once")
    wanted = list(item.numbers) or wanted_by(item.said)
    return [ANY] if wanted is None else [Match("comm", each) for each in wanted]


def each_of(item: Item) -> List[Match]:
    """Matches of which a standard entry asks for all."""
    return [ANY if each == INTERNET else Match("comm", each) for each in item.numbers]


def check_exact(items: List[Item]) -> None:
    """With `exact-match` a standard entry is about routes that carry just its communities; raises Unsayable for
    one."""
    if any(item.numbers and INTERNET not in item.numbers for item in items):
        raise Unsayable("the communities of a list and no others beside them (exact-match)")


def region_of_any(items: List[Item]) -> Region:
    """What a list permits with `any`: routes with some community that an entry names; raises Unsayable."""
    if not all(item.is_permit for item in items):
        raise Unsayable("the first community that a list with `deny` entries names (any)")
    wanted = [each for item in items for each in item.numbers or wanted_by(item.said, True) or [INTERNET]]
    if INTERNET in wanted:
        raise Unsayable("any community at all (any)")
    return [(Match("comm", each), True) for each in dict.fromkeys(wanted)] + NOTHING


def wanted_by(said: str, is_alone: bool = False) -> Optional[List[int]]:
    """The communities of which an expression wants one, whatever stands beside it; nothing where it wants none at all.
    `is_alone`: it is held against each community by itself, and not against all in a row. Raises Unsayable."""
    if re.fullmatch(r"\^?\.\*\$?", said):
        return None
    text = re.sub(r"^\^?\.\*", "", re.sub(r"\.\*\$?$", "", said))
    grouped = re.fullmatch(r"([^()|]*)\(([^()]*)\)([^()|]*)", text)
    parts = [grouped.group(1) + each + grouped.group(3) for each in grouped.group(2).split("|")] if grouped \
        else text.split("|")
    return list(dict.fromkeys(_wanted(part, is_alone) for part in parts))


def _wanted(text: str, is_alone: bool) -> int:
    """The one community that an expression without alternatives wants."""
    marked = re.sub(r"^\^", "_", re.sub(r"\$$", "_", text)) if is_alone else text
    found = re.fullmatch(r"(_?)([0-9]+:[0-9]+|[A-Za-z][A-Za-z0-9-]+)(_?)", marked)
    before, word, behind = found.groups() if found else ("", "", "")
    number = NAMES.get(word, read(word))
    # FRR writes well-known communities by their names, and only so does an expression find them.
    is_written = word in NAMES or number not in NAMES.values()
    if not number or not is_written or not (before or _begins_one(word)) or not (behind or _ends_one(word)):
        raise Unsayable("other expressions than `_N:M_`, which asks for one community whatever stands beside it")
    return number


def _begins_one(word: str) -> bool:
    """Whether a community that ends with it is this one: a half has no sixth digit."""
    return len(word.split(":")[0]) == 5 if ":" in word else _is_in_no_other(word)


def _ends_one(word: str) -> bool:
    """Whether a community that begins with it is this one: a half has no digit behind a 0, and is at most 65535."""
    if ":" not in word:
        return _is_in_no_other(word)
    low = int(word.split(":")[1])
    return low == 0 or low * 10 > 65535


def _is_in_no_other(name: str) -> bool:
    return all(name == each or name not in each for each in NAMES)


def is_about_none(item: Item, how: str) -> bool:
    """Whether an entry is about a route that carries no community."""
    if how == "any":
        return False
    return INTERNET in item.numbers if item.numbers else bool(finds_nothing(item.said))
