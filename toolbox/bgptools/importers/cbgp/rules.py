"""C-BGP's filters as rules. In C-BGP each rule that matches does what it says, and the next ones are asked, too, until
one accepts or denies; here the first rule that matches decides."""
from __future__ import annotations

import re
from dataclasses import dataclass
from typing import Callable, Dict, List, Optional

from ...program.language import SETTING_NAMES
from ..common.configuration import Item, Line as FrrLine
from ..common.policy import (
    ALL, ANY, DENY, NOTHING, PERMIT, Action, Match, Region, Rules, Unsayable, chosen, is_, of_both, shortened, under,
    without_covered
)
from ..common.regions import Place, World, path_region, prefix_matches
from .filters import MOST_NUMBER, Deed, Predicate, Rule
from .lines import Line

PREFERENCE = 100
MOST_PREPENDED = 16
DEEPEST = 20
# So many route maps are followed for one filter, those that others call too.
MOST_CALLS = 2000
INTERNAL = "a rule of an internal session sets nothing; preference, MED and communities stay as the border set them"
# What stands for a border between two AS numbers in the expressions that people write.
BORDERS = re.compile(r"\((?:\^| |\\s|\$)(?:\|(?:\^| |\\s|\$))+\)|\\b")

Tell = Callable[[Line, str], None]


@dataclass
class Converter:
    """Makes rules of the filters at one end of a session. `base` is the preference of a route to which no rule gives
    one, in C-BGP; `maps` are the route maps."""
    place: Place
    world: World
    maps: Dict[str, List[Rule]]
    base: int
    tell: Tell
    count: Tell
    depth: int = 0
    calls: int = 0

    def rules(self, found: List[Rule]) -> Rules[Action]:
        """The rules of a filter; what the first ones leave is permitted."""
        made = self._behind(found, [(ANY, PERMIT)])
        made = shortened(without_covered(made))
        return made[:-1] if made and made[-1] == (ANY, PERMIT) else made

    def _behind(self, found: List[Rule], rest: Rules[Action]) -> Rules[Action]:
        """The rules of these and then what follows."""
        for rule in reversed(found):
            rest = self._with(rule, rest)
        return rest

    def _with(self, rule: Rule, rest: Rules[Action]) -> Rules[Action]:
        inside = rest
        for deed in reversed(rule.deeds):
            inside = self._done(deed, inside, rule)
        # What is decided alike in and out of the region needs no other rules.
        same = next((at for at, (one, other) in enumerate(zip(inside, rest)) if one != other),
                    min(len(inside), len(rest)))
        try:
            return rest[:same] + chosen(self.region(rule.about), inside[same:], rest[same:])
        except Unsayable as reason:
            self.tell(rule.line, "%s: no rule is about %s, so it is left out; routes that it is about go on to the "
                                 "next rule" % (rule.line.text, reason))
            return rest

    def _done(self, deed: Deed, rest: Rules[Action], rule: Rule) -> Rules[Action]:
        """What is decided where this action comes first."""
        if deed.kind in ("accept", "deny"):
            return [(ANY, PERMIT if deed.kind == "accept" else DENY)]
        if deed.kind in ("call", "jump"):
            return self._map(deed, rest, rule)
        why = self._unset(deed, rule)
        if why == "":
            try:
                return self._set(deed, rest, rule)
            except Unsayable as reason:
                why = str(reason)
        if why is not None:
            self.tell(rule.line, "%s: %s" % (deed.said, why))
        return rest

    def _map(self, deed: Deed, rest: Rules[Action], rule: Rule) -> Rules[Action]:
        if deed.said not in self.maps:
            raise rule.line.mistake("there is no route map `%s`" % deed.said[:60])
        self.calls += 1
        if self.depth > DEEPEST:
            raise rule.line.mistake("route maps call each other more than %d deep" % DEEPEST)
        if self.calls > MOST_CALLS:
            raise rule.line.mistake("a filter calls route maps more than %d times" % MOST_CALLS)
        self.depth += 1
        found = self._behind(self.maps[deed.said], rest if deed.kind == "call" else [(ANY, PERMIT)])
        self.depth -= 1
        return found

    def _unset(self, deed: Deed, rule: Rule) -> Optional[str]:
        """Why an action is none of a rule; empty where it is one, None where it reaches nobody."""
        if deed.kind == "unknown":
            return "no rule does so; routes stay as they are"
        if not self.place.is_external:
            return INTERNAL
        if deed.kind == "pref" and self.place.way == "out":
            self.count(rule.line, "preferences towards another AS")
            return None
        if deed.kind == "prepend" and self.place.way == "in":
            return "a rule puts the own AS in front on the way out alone; here the path stays"
        return ""

    def _set(self, deed: Deed, rest: Rules[Action], rule: Rule) -> Rules[Action]:
        """The rules with a setting, which a later one of the same kind takes the place of; raises Unsayable."""
        value = self._preference(deed, rule) if deed.kind == "pref" else deed.value
        if deed.kind == "prepend" and value == 0:
            return rest
        if deed.kind == "prepend" and any(match.kind in ("path", "first") for match, _ in rest):
            raise Unsayable("later rules ask for the path that it would change; the path stays")
        if deed.kind == "add":
            rest = without_covered([(ANY if match == Match("comm", value) else match, action)
                                    for match, action in rest])
        return [(match, _settled(action, deed.kind, value)) for match, action in rest]

    def _preference(self, deed: Deed, rule: Rule) -> int:
        value = deed.value + PREFERENCE - self.base
        if not 0 <= value <= MOST_NUMBER:
            self.tell(rule.line, "%s: a preference here is C-BGP's and %d, and 0 to %d; the nearest one stands" % (
                deed.said, PREFERENCE - self.base, MOST_NUMBER))
        return max(0, min(MOST_NUMBER, value))

    def region(self, about: Predicate) -> Region:
        """What a predicate is about; raises Unsayable."""
        if about.kind == "not":
            return [(match, not is_in) for match, is_in in self.region(about.parts[0])]
        if about.kind in ("and", "or"):
            return self._joined(about)
        if about.kind == "prefix is":
            return [(is_(about.where), True)] + NOTHING
        if about.kind == "prefix in":
            return [(under(about.where), True)] + NOTHING
        if about.kind == "prefix":
            item = Item(True, FrrLine("", 0, ""), about.where, about.least, about.most)
            return [(match, True) for match in prefix_matches(item)] + NOTHING
        if about.kind == "comm":
            return [(Match("comm", about.community), True)] + NOTHING
        if about.kind == "path":
            return self._path(about.said)
        if about.kind == "next-hop":
            raise Unsayable("a next hop (%s)" % about.said)
        return ALL

    def _joined(self, about: Predicate) -> Region:
        """The region of several predicates at once, or of any of them."""
        found = self.region(about.parts[0])
        for part in about.parts[1:]:
            other = self.region(part)
            found = of_both(found, other) if about.kind == "and" else chosen(found, ALL, other)
        return found

    def _path(self, said: str) -> Region:
        try:
            # In C-BGP `_` is a letter as any other.
            found = path_region("?" if "_" in said else BORDERS.sub("_", said), self.world, self.place)
        except Unsayable:
            raise Unsayable("the paths of `%s`: there are rules for those with an AS (`(^| )N( |$)`), with a first one "
                            "(`^N( |$)`), with none (`^$`) or one alone (`^N$`)" % said) from None
        return found if any(match == ANY for match, _ in found) else found + NOTHING


def _settled(action: Action, kind: str, value: int) -> Action:
    """The action with a setting before those that it has; raises Unsayable."""
    if not action.is_permit:
        return action
    found = dict(action.settings)
    if kind == "prepend":
        value += int(found.get("prepend", "0"))
        if value > MOST_PREPENDED:
            raise Unsayable("a rule prepends at most %d times; the path stays" % MOST_PREPENDED)
        found["prepend"] = str(value)
    elif kind == "add" and found.get("add", str(value)) != str(value):
        raise Unsayable("a rule adds one community, and a later one adds another; it is left out")
    else:
        found.setdefault(kind, str(value))
    return Action(True, tuple((name, found[name]) for name in SETTING_NAMES if name in found))
