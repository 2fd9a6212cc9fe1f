"""Prefix lists, access lists, as-path lists and community lists as regions of rules, and what they say of an own
route."""
from __future__ import annotations

from typing import Collection, Dict, List, Optional

from ...program.language import contains
from ..common.configuration import Config, Item, Line, short
from ..common.decision_lists import decided
from ..common.expressions import finds_nothing
from ..common.paths import occurring_region
from ..common.policy import ANY, NOTHING, Prefix, Region, Unsayable, shortened
from ..common.regions import EXACT_FOR, Place, World, path_region, prefix_region
from .communities import check_exact, each_of, is_about_none, matches_of, region_of_any

LISTS = {"prefix-list": "prefix_lists", "distribute-list": "access_lists", "access-list": "access_lists",
         "as-path": "path_lists", "filter-list": "path_lists", "community": "community_lists"}


def entries_of(config: Config, kind: str, name: str) -> Optional[List[Item]]:
    """The entries of a list in the order of their numbers; nothing where there is no such list."""
    known: Optional[Dict[int, Item]] = getattr(config, LISTS[kind]).get(name.partition(" ")[0])
    return [known[sequence] for sequence in sorted(known)] if known is not None else None


def regions_of(config: Config, kind: str, name: str, world: World, place: Place) -> Optional[List[Region]]:
    """What is in all these regions is what a list permits; nothing where there is no such list. An entry that no rules
    say is told; raises Unsayable where no rules say what is asked of the list."""
    entries = entries_of(config, kind, name)
    if entries is None:
        return None
    if kind == "community" and " " not in name and len(entries) == 1 and entries[0].is_permit and entries[0].numbers:
        # A route has to carry all of them.
        return [[(match, True)] + NOTHING for match in each_of(entries[0])]
    return [_region_of(config, kind, name, entries, world, place)]


def _region_of(config: Config, kind: str, name: str, entries: List[Item], world: World, place: Place) -> Region:
    if name.endswith(" any"):
        return region_of_any(entries)
    if name.endswith(" exact-match"):
        check_exact(entries)
    region = NOTHING
    for item in reversed(entries):
        try:
            region = _with_item(config, item, kind, region, world, place)
        except Unsayable as reason:
            if world.unsaid != "skip":
                raise
            config.tell(item.line, "%s: no rule is about %s; routes that it is about go on to what follows%s" % (
                _shown(item), reason, "; `--unsaid permit` or `--unsaid deny` decides all that comes to it" if kind == "prefix-list" else ""))
    return shortened(region)


def _with_item(config: Config, item: Item, kind: str, region: Region, world: World, place: Place) -> Region:
    """The region with an entry before it; raises Unsayable."""
    if kind == "community":
        return [(match, item.is_permit) for match in matches_of(item)] + region
    known = world.prefixes(place)
    if kind not in ("as-path", "filter-list"):
        said, is_closed = prefix_region(item, known)
        if is_closed:
            tell_closed(config, item.line, known or ())
        if not is_closed:
            return [(match, item.is_permit) for match, is_in in said if is_in] + region
        return decided([said], [(ANY, item.is_permit)], region, known)[0]
    said = _path_region(config, item, world, place)
    if all(is_in for _, is_in in said):
        return [(match, item.is_permit) for match, _ in said] + region
    # A route with no AS in its path is met by none of the matches that ask for one, so these may stand first.
    asking = next((at for at, (match, _) in enumerate(region) if match.kind not in ("path", "first")),
                  0) if item.said == "^$" else 0
    behind, is_closed = decided([said], [(ANY, item.is_permit)], region[asking:], known)
    if is_closed:
        tell_closed(config, item.line, known or ())
    return region[:asking] + behind


def _path_region(config: Config, item: Item, world: World, place: Place) -> Region:
    """What an entry of an as-path list is about, of all paths or of those that can occur; raises Unsayable."""
    try:
        return path_region(item.said, world, place)
    except Unsayable as reason:
        try:
            found = occurring_region(item.said, world, place)
        except Unsayable:
            raise reason from None
    tell_closed(config, item.line, world.prefixes(place) or ())
    return found


def tell_closed(config: Config, line: Line, known: Collection[Prefix]) -> None:
    """Tells, once for a line, that rules are exact for the prefixes that occur."""
    config.tell(line, "%s: %s" % (short(line.text), EXACT_FOR % len(known)), False)


def _shown(item: Item) -> str:
    return " ".join(item.line.text.split(" ")[:16])


# An own route

def permits(config: Config, kind: str, name: str, where: Prefix) -> bool:
    """Whether a list permits the router's own route to a prefix."""
    found = next((item for item in entries_of(config, kind, name) or [] if _is_about(item, kind, name, where)), None)
    return found is not None and found.is_permit


def _is_about(item: Item, kind: str, name: str, where: Prefix) -> bool:
    if kind == "as-path":
        return bool(finds_nothing(item.said))
    if kind == "community":
        return is_about_none(item, name.partition(" ")[2])
    if item.is_wild:
        return where[0] >> (32 - item.where[1]) == item.where[0] >> (32 - item.where[1]) if item.where[1] else True
    return contains(item.where, where) and item.least <= where[1] <= item.most
