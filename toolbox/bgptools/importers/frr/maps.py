"""Route maps as rules: their entries from the last to the first, with what `on-match`, `continue` and `call` go on to."""
from __future__ import annotations

from typing import Callable, Dict, List, NamedTuple, Tuple

from ...program.language import SETTING_NAMES
from ..common.configuration import Config, Entry, Line, short
from ..common.decision_lists import decided
from ..common.policy import ANY, DENY, NOTHING, Action, Match, Region, Rules, Unsayable
from ..common.regions import Place, World
from ..common.route_settings import INTERNAL, NO_NEIGHBOUR, unset
from .communities import GIVES_NONE, Given, given, named_in, tell_heeded, unsaid
from .lists import entries_of, regions_of, tell_closed

# So deep FRR lets maps call each other, and so many entries are followed behind those that go on.
MOST_CALLS, MOST_STEPS = 10, 2000
MOST_PREPENDED = 16


def map_rules(config: Config, name: str, line: Line, place: Place, world: World) -> Rules[Action]:
    """The rules of a route map."""
    if name not in config.maps:
        config.tell(line, "%s: there is no route-map %s; all is denied, as FRR does" % (short(line.text), name), False)
        return [(ANY, DENY)]
    walk = _Walk(config, place, world)
    return walk.behind(_sorted(config, name), 0, _State(), _permitted, 0)


def _sorted(config: Config, name: str) -> List[Entry]:
    return [config.maps[name][sequence] for sequence in sorted(config.maps[name])]


class _State(NamedTuple):
    """What entries have set until here, and whether the last one has permitted the route and gone on."""
    settings: Tuple[Tuple[str, str], ...] = ()
    is_permitted: bool = False


_End = Callable[[_State], Rules[Action]]


def _permitted(state: _State) -> Rules[Action]:
    """What a route becomes that a map permits."""
    known = dict(state.settings)
    return [(ANY, Action(True, tuple((name, known[name]) for name in SETTING_NAMES if name in known)))]


class _Walk:
    """A route map at its place."""

    def __init__(self, config: Config, place: Place, world: World) -> None:
        self.config, self.place, self.world = config, place, world
        self.steps = 0

    def behind(self, entries: List[Entry], at: int, state: _State, end: _End, depth: int) -> Rules[Action]:
        """The rules of the entries from one on; `end` are those behind the map where it permits, and `depth` is how
        many maps have called it."""
        if at >= len(entries):
            return end(state) if state.is_permitted else [(ANY, DENY)]
        # What a further entry does not match is denied, though one before has permitted it.
        rules: Rules[Action] = [(ANY, DENY)]
        for where in range(len(entries) - 1, at - 1, -1):
            rules = self._with_entry(entries, where, state, rules, end, depth)
        return rules

    def _with_entry(self, entries: List[Entry], at: int, state: _State, rules: Rules[Action], end: _End,
                    depth: int) -> Rules[Action]:
        """The rules with those of an entry before them, where it can be said."""
        entry = entries[at]
        if entry.is_broken:
            return self._unsaid(entry, state, rules, end, "it has a line that cannot be said")
        known = self.world.prefixes(self.place)
        try:
            inside = self._inside(entries, at, state, end, depth)
            found, is_closed = decided(self._conditions(entry, state), inside, rules, known)
        except Unsayable as reason:
            return self._unsaid(entry, state, rules, end, "no rule is about %s" % reason)
        if is_closed:
            tell_closed(self.config, entry.line, known or ())
        return found

    def _unsaid(self, entry: Entry, state: _State, rules: Rules[Action], end: _End, why: str) -> Rules[Action]:
        """The rules without an entry, of which the reason is told."""
        chosen = self.world.unsaid
        comes = "so it is left out; routes that it %s go on to the next entry" % (
            "permits" if entry.is_permit else "denies") if chosen == "skip" else \
            "so `--unsaid %s` %s all that comes to it" % (chosen, {"deny": "denies", "permit": "permits"}[chosen])
        self.config.tell(entry.line, "%s: %s, %s" % (entry.line.text, why, comes))
        if chosen == "skip":
            return rules
        return [(ANY, DENY)] if chosen == "deny" else end(state._replace(is_permitted=True))

    # What an entry asks for

    def _conditions(self, entry: Entry, state: _State) -> List[Region]:
        """The regions that are all asked for; raises Unsayable."""
        found: List[Region] = []
        set_before = dict(state.settings)
        for kind, (name, line) in entry.matches.items():
            regions = self._regions(kind, name, line)
            if kind == "as-path" and "prepend" in set_before:
                raise Unsayable("a path into which the map has put something")
            if kind == "community" and "add" in set_before:
                added = Match("comm", int(set_before["add"]))
                regions = [[(ANY if match == added else match, is_in) for match, is_in in each] for each in regions]
            found += regions
        return found

    def _regions(self, kind: str, name: str, line: Line) -> List[Region]:
        regions = regions_of(self.config, kind, name, self.world, self.place)
        if regions is None:
            self.config.tell(line, "%s: there is no such list; it matches nothing, as in FRR" % line.text, False)
        elif kind == "community":
            for item in entries_of(self.config, kind, name) or []:
                tell_heeded(self.config, item.line, named_in(item))
        return [NOTHING] if regions is None else regions

    # What an entry does

    def _inside(self, entries: List[Entry], at: int, state: _State, end: _End, depth: int) -> Rules[Action]:
        """The rules for routes that an entry is about; raises Unsayable."""
        entry = entries[at]
        if not entry.is_permit:
            return [(ANY, DENY)]
        now = self._set(entry, state)

        def after(then: _State) -> Rules[Action]:
            return self._after(entries, at, then._replace(is_permitted=True), end, depth)

        if entry.call and entry.call not in self.config.maps:
            self.config.tell(entry.line, "%s: there is no route-map %s that it calls; it goes on without, as FRR "
                             "does" % (entry.line.text, entry.call), False)
        elif entry.call:
            if depth == MOST_CALLS:
                raise Unsayable("maps that call each other more than %d deep" % MOST_CALLS)
            return self._counted(_sorted(self.config, entry.call), 0, now._replace(is_permitted=False), after, depth + 1)
        return after(now)

    def _after(self, entries: List[Entry], at: int, state: _State, end: _End, depth: int) -> Rules[Action]:
        """The rules behind an entry that has permitted: those of the entry that it goes on to, or the end."""
        target = entries[at].goes_on
        if target is None:
            return end(state)
        first = next((where for where in range(at + 1, len(entries)) if entries[where].sequence >= target), len(entries))
        return self._counted(entries, first, state, end, depth)

    def _counted(self, entries: List[Entry], at: int, state: _State, end: _End, depth: int) -> Rules[Action]:
        """The rules of entries behind another one; raises Unsayable where these are too many."""
        self.steps += len(entries) - at
        if self.steps > MOST_STEPS:
            raise Unsayable("more than %d entries behind those that go on" % MOST_STEPS)
        return self.behind(entries, at, state, end, depth)

    def _set(self, entry: Entry, state: _State) -> _State:
        """What is set behind an entry; raises Unsayable where a rule does not set that together."""
        found, new = dict(state.settings), dict(settings_of(self.config, entry, self.place, self.world))
        if "prepend" in new and "prepend" in found:
            new["prepend"] = str(int(new["prepend"]) + int(found["prepend"]))
            if int(new["prepend"]) > MOST_PREPENDED:
                raise Unsayable("prepending more than %d times" % MOST_PREPENDED)
        if "add" in found and "comm-list" in entry.settings:
            raise Unsayable("taking away a community that was added")
        if "add" in found and "community" in entry.settings:
            wanted = given(entry.settings["community"][0]) or GIVES_NONE
            if wanted.is_additive and new.get("add", found["add"]) != found["add"]:
                raise Unsayable("two communities that are added")
            if not wanted.is_additive:
                del found["add"]
        return state._replace(settings=tuple(sorted({**found, **new}.items())))


def settings_of(config: Config, entry: Entry, place: Place, world: World) -> Tuple[Tuple[str, str], ...]:
    """The settings that a rule of this session has; what it cannot have is told, or counted where it decides
    nothing."""
    found: Dict[str, str] = {}
    for name, (said, line) in entry.settings.items():
        is_of_communities = name in ("community", "comm-list")
        wanted = (given(said) if name == "community" else None) or GIVES_NONE
        comes = (_unset_community(config, entry, wanted, place, world) if is_of_communities
                 else unset(config, name, said, place))
        if comes == NO_NEIGHBOUR:
            config.count_line(comes, line)
        elif comes:
            config.tell(line, "%s: %s" % (line.text, comes))
        elif is_of_communities:
            tell_heeded(config, line, wanted.numbers)
            found.update(("add", str(each)) for each in wanted.numbers)
        else:
            found[name] = str(len(said.split(" "))) if name == "prepend" else said
    return tuple((name, found[name]) for name in SETTING_NAMES if name in found)


def _unset_community(config: Config, entry: Entry, wanted: Given, place: Place, world: World) -> str:
    """Why what an entry does to communities is none of the rule, or nothing."""
    if place.way == "out" and not place.is_sent:
        return NO_NEIGHBOUR
    is_bare = _is_about_own(config, entry) and world.is_own_bare(place.asn) or world.is_bare(place)
    if not wanted.numbers:
        return "" if is_bare else "FRR takes communities away from a route, and no rule does; it keeps them here"
    return unsaid(wanted, is_bare) if place.is_external else INTERNAL


def _is_about_own(config: Config, entry: Entry) -> bool:
    """Whether an entry matches routes of the own AS alone, by a list that permits empty paths."""
    if "as-path" not in entry.matches:
        return False
    permitted = [item.said for item in entries_of(config, "as-path", entry.matches["as-path"][0]) or []
                 if item.is_permit]
    return set(permitted) == {"^$"}
