"""The policies of a session as rules, and what a route map says of a prefix that the router originates."""
from __future__ import annotations

from typing import Dict, NamedTuple, Optional, Tuple

from ..common.configuration import Config, Line, Neighbour, short
from ..common.decision_lists import decided
from ..common.policy import ANY, DENY, PERMIT, Action, Prefix, Rules, Unsayable, shortened
from ..common.regions import Place, World
from .lists import permits, regions_of, tell_closed
from .maps import map_rules

FILTERS = ("filter-list", "prefix-list", "distribute-list")


def policy(config: Config, each: Neighbour, way: str, place: Place, world: World) -> Optional[Rules[Action]]:
    """The rules for what comes from a neighbour, or goes to it; nothing where there is no policy."""
    used = [(kind, *each.filters[kind, way]) for kind in ("route-map",) + FILTERS if (kind, way) in each.filters]
    if not used:
        return [(ANY, DENY)] if requires_policy(config, each, way, place.is_external) else None
    rules: Rules[Action] = [(ANY, PERMIT)]
    for kind, name, line in used:
        rules = map_rules(config, name, line, place, world) if kind == "route-map" else _filtered(config, kind, name,
            line, rules, place, world)
    rules = shortened(rules)
    return rules


def requires_policy(config: Config, each: Neighbour, way: str, is_external: bool) -> bool:
    """Whether FRR denies all routes of a neighbour on this way, since no policy is set (RFC 8212)."""
    has_policy = any((kind, way) in each.filters for kind in ("route-map",) + FILTERS)
    return not has_policy and is_external and config.is_on("bgp ebgp-requires-policy")


def _filtered(config: Config, kind: str, name: str, line: Line, rules: Rules[Action], place: Place,
              world: World) -> Rules[Action]:
    """The rules behind a filter, which denies what it does not permit."""
    try:
        regions = regions_of(config, kind, name, world, place)
        if regions is None:
            config.tell(line, "%s: there is no %s %s; all is denied, as FRR does" % (short(line.text), kind, name),
                        False)
            return [(ANY, DENY)]
        found, is_closed = decided(regions, rules, [(ANY, DENY)], world.prefixes(place))
    except Unsayable as reason:
        comes = {"deny": "all is denied here, by `--unsaid deny`"}.get(
            world.unsaid, "what only this filter denies is let through here")
        config.tell(line, "%s: no rule is about %s; %s" % (short(line.text), reason, comes))
        return [(ANY, DENY)] if world.unsaid == "deny" else rules
    if is_closed:
        tell_closed(config, line, world.prefixes(place) or ())
    return found


class Judged(NamedTuple):
    """What a route map says of an own route: whether it is permitted, nothing where that is not known, and what is
    set."""
    is_permit: Optional[bool]
    settings: Dict[str, Tuple[str, Line]]


def judged(config: Config, name: str, where: Prefix) -> Judged:
    """What a route map says of the router's own route to a prefix. Without a map it is permitted; by one that is not
    there it is denied."""
    if not name:
        return Judged(True, {})
    entries = config.maps.get(name, {})
    for entry in (entries[sequence] for sequence in sorted(entries)):
        if entry.is_broken:
            return Judged(None, {})
        if all(permits(config, kind, wanted, where) for kind, (wanted, _) in entry.matches.items()):
            if entry.is_permit and (entry.call or entry.goes_on is not None):
                return Judged(None, {})
            return Judged(entry.is_permit, entry.settings)
    return Judged(False, {})
