"""Filters of BIRD as rules: what they do with routes of BGP, way by way through their statements; and with a route of
the router's own."""
from __future__ import annotations

import contextlib
from typing import Any, Callable, Dict, List, NamedTuple, Optional, Tuple

from ...program.language import SETTING_NAMES, show_address
from ...program.mistakes import Mistake
from ..common.configuration import Line, short
from ..common.decision_lists import decided
from ..common.expressions import names_like
from ..common.paths import occurring_region
from ..common.policy import ALL, ANY, DENY, NOTHING, Action, Match, Region, Rules, Unsayable, shortened
from ..common.regions import EXACT_FOR, Place, World, path_region
from ..common.route_settings import NO_NEIGHBOUR, unset
from .configuration import BirdConfig, OwnRoute, Policy, Session
from .filters import Net, Node, Span
from .values import (
    Mask, Pair, SetOf, Symbol, always, as_told, communities_in, expression_of_last, expression_of_mask, is_in, prefixes,
    reckoned, spread
)

# So many statements at most are followed, over all ways through a filter, and so many parts of expressions.
MOST_STEPS, MOST_VALUES = 20000, 500000
FOLLOWS_NOT = "from-bird follows no `%s`; it is left out"
# What a variable is that is declared and got no value.
UNSET = None
# What a filter may ask of a route, and what of it no rule asks for.
SYMBOLS = frozenset((
    "net proto source from dest bgp_path bgp_community bgp_local_pref bgp_med bgp_origin bgp_next_hop gw preference "
    "bgp_large_community bgp_ext_community bgp_originator_id bgp_cluster_list bgp_otc bgp_atomic_aggr bgp_aggregator "
    "ifname ifindex igp_metric ospf_metric1 ospf_metric2 ospf_tag ospf_router_id krt_source krt_metric "
    "scope").split(" "))
SETTINGS = {"bgp_local_pref": "pref", "bgp_med": "med"}
RULES_MATCH = "rules match by prefix, by an AS in the path, by the neighbouring AS and by a community"
ENUMS = ("RTS_", "RTD_", "ORIGIN_", "NET_", "SCOPE_", "ROA_")
WELL_KNOWN = {"true": True, "false": False}


class State(NamedTuple):
    """What a filter has set until here, and what its names stand for."""
    settings: Tuple[Tuple[str, str], ...] = ()
    names: Tuple[Tuple[str, Any], ...] = ()

    def value(self, name: str) -> Optional[str]:
        """What is set of a kind."""
        return dict(self.settings).get(name)

    def setting(self, name: str, value: str) -> "State":
        """The state with one setting more."""
        return self._replace(settings=tuple(sorted({**dict(self.settings), name: value}.items())))

    def naming(self, given: Dict[str, Any]) -> "State":
        """The state with these names."""
        return self._replace(names=tuple({**dict(self.names), **given}.items()))


End = Callable[[State], Rules[Action]]
Branch = Callable[[State, bool], Rules[Action]]


class Evaluation:
    """A filter at its place. `own`: for this route of the router's own, and not for those of BGP."""

    def __init__(self, config: BirdConfig, session: Session, place: Place, world: World,
                 count_of: Callable[[int], int], own: Optional[OwnRoute] = None) -> None:
        self.config, self.session, self.place, self.world = config, session, place, world
        self.count_of, self.own = count_of, own
        self.known = world.prefixes(place)
        self.steps = self.values = 0

    def rules(self, policy: Policy) -> Rules[Action]:
        """The rules of a policy; raises Mistake where there are too many ways through it."""
        body = policy.statements
        if policy.name:
            if policy.name not in self.config.filters:
                self._tell(policy.line, "there is no filter %s; nothing is let through here" % policy.name)
                return [(ANY, DENY)]
            body = self.config.filters[policy.name]
        begin = State()
        if self.place.is_from_outside and self.session.preference != 100:
            begin = begin.setting("pref", str(self.session.preference))
        try:
            # At its end a filter rejects.
            return shortened(self._run(body, begin, lambda state: [(ANY, DENY)], lambda state, value: [(ANY, DENY)]))
        except RecursionError:
            raise Mistake("it has more statements one behind the other than from-bird follows", policy.line.file,
                          policy.line.number) from None

    def _tell(self, line: Line, text: str, decides: bool = True) -> None:
        self.config.tell(line, "%s: %s" % (short(line.text), text), decides)

    # Statements

    def _run(self, body: Tuple[Node, ...], state: State, end: End, returned: Branch) -> Rules[Action]:
        """The rules of these statements, and of what comes behind them."""
        self.steps += 1
        if self.steps > MOST_STEPS:
            where = self.session.line
            raise Mistake("the filters of this session have more than %d ways through them" % MOST_STEPS, where.file,
                          where.number)
        for at, node in enumerate(body):
            rest = body[at + 1:]
            if node.what in ("accept", "reject"):
                return [(ANY, self._accepted(state) if node.what == "accept" else DENY)]
            if node.what == "return":
                return self._returned(node, state, returned)
            if node.what in ("if", "call"):
                return self._parted(node, state, rest, end, returned)
            if node.what == "block":
                return self._run(node.of[0] + rest, state, end, returned)
            state = self._step(node, state)
        return end(state)

    def _accepted(self, state: State) -> Action:
        known = dict(state.settings)
        if "prepend" in known:
            known["prepend"] = str(len(known["prepend"].split(" ")))
        return Action(True, tuple((name, known[name]) for name in SETTING_NAMES if name in known))

    def _parted(self, node: Node, state: State, rest: Tuple[Node, ...], end: End, returned: Branch) -> Rules[Action]:
        """What comes of a statement after which there may be several ways on."""
        def behind(now: State) -> Rules[Action]:
            return self._run(rest, now, end, returned)

        if node.what == "call":
            return self._called(node, state, behind)
        return self._if(node, state, behind, returned)

    def _if(self, node: Node, state: State, end: End, returned: Branch) -> Rules[Action]:
        condition, inside, outside = node.of

        def behind(now: State, holds: bool) -> Rules[Action]:
            return self._run(inside if holds else outside, now, end, returned)

        try:
            return self._branch(condition, state, behind)
        except Unsayable as reason:
            return self._unsaid(node, reason, state, behind)

    def _unsaid(self, node: Node, reason: Unsayable, state: State, behind: Branch) -> Rules[Action]:
        """What comes of a condition that no rule says, and of which the reason is told."""
        chosen = self.world.unsaid
        comes = "it is left out, as if it did not hold" if chosen == "skip" else \
            "`--unsaid %s` %s all that comes to it" % (chosen, {"deny": "rejects", "permit": "accepts"}[chosen])
        self._tell(node.line, "no rule is about %s; %s" % (reason, comes))
        if chosen == "skip":
            return behind(state, False)
        return [(ANY, DENY if chosen == "deny" else self._accepted(state))]

    def _returned(self, node: Node, state: State, returned: Branch) -> Rules[Action]:
        try:
            return self._branch(node.of[0], state, returned)
        except Unsayable as reason:
            return self._unsaid(node, reason, state, returned)

    def _called(self, node: Node, state: State, end: End) -> Rules[Action]:
        """A call whose value is not asked for."""
        try:
            return self._call(node, state, lambda now, _: end(now))
        except Unsayable as reason:
            self._tell(node.line, "%s is not known; it is left out" % reason)
            return end(state)

    def _call(self, node: Node, state: State, returned: Branch) -> Rules[Action]:
        """A call of a function, which may end the filter, set something, and give a value back."""
        name, given = node.of
        known = self.config.functions.get(name)
        if known is None or len(known.parameters) != len(given):
            raise Unsayable("what `%s` says" % name)
        values = {each: self._value(one, state) for each, one in zip(known.parameters, given)}
        outer = state.names
        return self._run(known.body, state.naming(values), lambda now: returned(now._replace(names=outer), False),
                         lambda now, holds: returned(now._replace(names=outer), holds))

    def _step(self, node: Node, state: State) -> State:
        """A statement that goes on to the next one: what it sets, or that it is told."""
        try:
            if node.what == "set":
                return self._set(node, state)
            if node.what == "do":
                return self._do(node, state)
            if node.what == "declare":
                name, value = node.of
                return state.naming({name: UNSET if value is None else self._value(value, state)})
        except Unsayable as reason:
            self._tell(node.line, "%s; it is left out" % reason)
            return state
        if node.what == "print":
            self.config.count_line("logs", node.line)
        elif node.what == "other":
            self._tell(node.line, FOLLOWS_NOT % short(node.of[0]))
        return state

    def _set(self, node: Node, state: State) -> State:
        """`NAME = X`."""
        name, value = node.of
        if name in SETTINGS:
            return self._setting(node.line, state, SETTINGS[name], str(self._number(value, state)))
        if name in ("bgp_path", "bgp_community") and value.what == "called" and value.of[0] in ("prepend", "add"):
            method, (about, *given) = value.of if len(value.of[1]) == 2 else ("", (Node("name", ("",), node.line),))
            if about.what == "name" and about.of[0] == name:
                return self._do(Node("do", (name, method, tuple(given)), node.line), state)
        if name in SYMBOLS or name.startswith("bgp_"):
            raise Unsayable("a rule sets preference, MED and prepending, and adds one community; nothing else")
        if name not in dict(state.names):
            raise Unsayable("`%s` is no variable that is declared here" % short(name))
        return state.naming({name: self._value(value, state)})

    def _number(self, node: Node, state: State) -> int:
        found = self._value(node, state)
        if not isinstance(found, int) or isinstance(found, bool) or not 0 <= found < 2 ** 32:
            raise Unsayable("a rule sets a number, and none that is reckoned from the route's")
        return found

    def _do(self, node: Node, state: State) -> State:
        """`NAME.METHOD(X)`."""
        name, method, given = node.of
        if (name, method) == ("bgp_path", "prepend") and len(given) == 1:
            said = ((state.value("prepend") or "") + " %d" % self._number(given[0], state)).strip()
            reason = unset(self.config, "prepend", said, self.place)
            if reason:
                raise Unsayable(reason)
            return state.setting("prepend", said)
        if (name, method) == ("bgp_community", "add") and len(given) == 1:
            found = communities_in(self._value(given[0], state))
            if len(found) == 1:
                return self._added(node.line, state, str(found[0]))
        raise Unsayable("a rule sets preference, MED and prepending, and adds one community; nothing else")

    def _added(self, line: Line, state: State, number: str) -> State:
        before = state.value("add")
        if not self.place.is_external:
            raise Unsayable("a rule of an internal session sets nothing; communities stay as the border set them")
        if before not in (None, number):
            raise Unsayable("a rule adds one community, and there is one before")
        return state.setting("add", number)

    def _setting(self, line: Line, state: State, name: str, value: str) -> State:
        reason = unset(self.config, name, value, self.place)
        if reason == NO_NEIGHBOUR:
            self.config.count_line(reason, line)
        elif reason:
            raise Unsayable(reason)
        return state if reason else state.setting(name, value)

    # Conditions

    def _branch(self, node: Node, state: State, then: Branch) -> Rules[Action]:
        """What comes of a condition: the rules where it holds for what it is about, and the others for all else."""
        if node.what in ("and", "or"):
            is_and = node.what == "and"
            return self._branch(node.of[0], state, lambda now, holds: self._branch(node.of[1], now, then)
                                if holds == is_and else then(now, holds))
        if node.what == "not":
            return self._branch(node.of[0], state, lambda now, holds: then(now, not holds))
        if node.what == "called" and node.of[0] in self.config.functions:
            return self._call(node, state, then)
        region = self._region(node, state)
        if all(holds for _, holds in region) or not any(holds for _, holds in region):
            return then(state, region[0][1])
        found, is_closed = decided([region], then(state, True), then(state, False), self.known)
        if is_closed:
            self._tell_closed(node.line)
        return found

    def _tell_closed(self, line: Line) -> None:
        self._tell(line, EXACT_FOR % len(self.known or ()), False)

    def _region(self, node: Node, state: State) -> Region:
        """What a condition is about; raises Unsayable."""
        if node.what == "compare":
            sign, left, right = node.of
            found = self._met(sign.lstrip("!"), self._value(left, state), self._value(right, state), state, node.line)
            return [(match, not holds) for match, holds in found] if sign.startswith("!") else found
        value = self._value(node, state)
        if isinstance(value, bool):
            return always(value)
        raise Unsayable(as_told(value))

    def _met(self, sign: str, left: Any, right: Any, state: State, line: Line) -> Region:
        if isinstance(right, Symbol) and not isinstance(left, Symbol) and sign == "=":
            left, right = right, left
        if isinstance(left, Symbol):
            return self._of_symbol(sign, left.name, right, state, line)
        if isinstance(right, Symbol):
            return self._inside(left, right, state, line)
        if sign == "~":
            return always(is_in(left, right))
        if sign == "=":
            return always(left == right)
        if isinstance(left, int) and isinstance(right, int):
            return always({"<": left < right, ">": left > right, "<=": left <= right, ">=": left >= right}[sign])
        raise Unsayable("%s and %s compared" % (as_told(left), as_told(right)))

    def _inside(self, left: Any, right: Symbol, state: State, line: Line) -> Region:
        """Whether a route has an AS or a community."""
        if right.name == "bgp_community" and isinstance(left, Pair):
            return self._of_community(SetOf((left,)), state)
        if right.name == "bgp_path" and isinstance(left, int):
            return self._of_path(SetOf((left,)), state, line)
        raise Unsayable(as_told(right))

    def _of_symbol(self, sign: str, name: str, right: Any, state: State, line: Line) -> Region:
        if name == "net" and sign == "=" and isinstance(right, Net):
            return prefixes(SetOf((right,)), None)[0]
        if name == "net" and sign == "~" and isinstance(right, (Net, SetOf)):
            region, is_closed = prefixes(right, self.known)
            if is_closed:
                self._tell_closed(line)
            return region
        if name == "bgp_path" and sign == "~" and isinstance(right, (Mask, SetOf)):
            return self._of_path(right, state, line)
        if name == "bgp_path.last" and sign in ("=", "~") and not state.value("prepend"):
            return self._occurring(expression_of_last(right), line, "the last AS of a path")
        if name == "bgp_path.first" and sign in ("=", "~"):
            return self._of_first(right if sign == "~" else SetOf((right,)), state)
        if name == "bgp_community" and sign == "~":
            return self._of_community(right if isinstance(right, SetOf) else SetOf((right,)), state)
        if name == "proto" and isinstance(right, str) and sign in ("=", "~"):
            return self._of_protocol(right)
        raise Unsayable("%s: %s" % (as_told(Symbol(name)), RULES_MATCH))

    def _occurring(self, expression: str, line: Line, about: str) -> Region:
        """What an expression finds of the paths that can occur; raises Unsayable about these paths."""
        try:
            found = occurring_region(expression, self.world, self.place)
        except Unsayable:
            raise Unsayable(about) from None
        self._tell_closed(line)
        return found

    def _of_path(self, wanted: Any, state: State, line: Line) -> Region:
        if state.value("prepend"):
            raise Unsayable("a path into which the filter has put something")
        if isinstance(wanted, SetOf):
            return self._some(wanted, "path")
        inside = [each for each in wanted.elements if each != "*"]
        stars = tuple(each == "*" for each in wanted.elements)
        if self.own is not None:
            return always(not inside)
        if not inside:
            return ALL if stars else path_region("^$", self.world, self.place)
        if len(inside) == 1 and stars in ((True, False, True), (False, True)):
            wanted = inside[0] if isinstance(inside[0], SetOf) else SetOf((inside[0],))
            return self._some(wanted, "path" if stars[0] else "first")
        if len(inside) == 1 and stars == (False,) and isinstance(inside[0], int):
            with contextlib.suppress(Unsayable):
                return path_region("^%d$" % inside[0], self.world, self.place)
        return self._occurring(expression_of_mask(wanted), line, "other paths than those with an AS, `[= * N * =]`, "
                               "with a first one, `[= N * =]`, with none, `[= =]`, or one alone, `[= N =]`")

    def _of_first(self, wanted: Any, state: State) -> Region:
        if state.value("prepend"):
            raise Unsayable("a path into which the filter has put something")
        if not isinstance(wanted, SetOf) or 0 in wanted.elements:
            raise Unsayable("this first AS of a path")
        return self._some(wanted, "first")

    def _some(self, wanted: SetOf, kind: str) -> Region:
        """Paths that have one of these ASes, or begin with one."""
        if self.own is not None:
            return NOTHING
        return [(Match(kind, asn), True) for each in wanted.elements for asn in spread(each, 1)] + NOTHING

    def _of_community(self, wanted: SetOf, state: State) -> Region:
        numbers = [number for each in wanted.elements for number in communities_in(each)]
        if state.value("add") in [str(number) for number in numbers]:
            return ALL
        return NOTHING if self.own is not None else [(Match("comm", number), True) for number in numbers] + NOTHING

    def _of_protocol(self, wanted: str) -> Region:
        """Routes that a protocol brought: those of a session by its neighbour's AS, where no other session has it."""
        names = names_like(self.config.protocols, wanted)
        found = [each for each in self.config.sessions() if each.protocol in names]
        for each in found:
            asn = int(each.remote) if each.remote.isdigit() else 0
            if not each.is_external_in(self.config) or self.count_of(asn) != 1:
                raise Unsayable("the session that a route came over, but where it is the only one of its AS with the "
                                "neighbour's AS, as `bgp_path.first`")
        return [(Match("first", int(each.remote)), True) for each in found] + NOTHING

    # Values

    def _value(self, node: Node, state: State) -> Any:
        """What an expression is: a number, a text, a prefix, a set, or a symbol; raises Unsayable."""
        what, of = node.what, node.of
        self._count_value(node)
        if what == "value":
            return of[0]
        if what == "name":
            return self._named(of[0], state)
        if what == "parts":
            parts = [self._value(each, state) for each in of]
            if len(parts) == 2:
                return Pair(*parts)
        if what == "elements":
            return SetOf(tuple(self._value(each, state) for each in of))
        if what == "span":
            return Span(self._value(of[0], state), self._value(of[1], state))
        if what == "mask":
            return Mask(tuple(self._value(each, state) for each in of))
        if what == "of":
            return self._part(self._value(of[0], state), of[1])
        if what in ("compare", "and", "or", "not"):
            return self._truth(node, state)
        if what == "reckon":
            return reckoned(of[0], self._value(of[1], state), self._value(of[2], state))
        raise Unsayable("what `%s` says" % of[0] if what == "called" else "large and extended communities")

    def _count_value(self, node: Node) -> None:
        """Raises Mistake where expressions, with what their names stand for, have too many parts."""
        self.values += 1
        if self.values > MOST_VALUES:
            raise Mistake("the filters of this session reckon with more than %d parts of expressions" % MOST_VALUES,
                          node.line.file, node.line.number)

    def _truth(self, node: Node, state: State) -> bool:
        """A condition that is a value: one that holds always, or never."""
        found: List[bool] = []

        def note(_: State, holds: bool) -> Rules[Action]:
            found.append(holds)
            return [(ANY, DENY)]

        self._branch(node, state, note)
        if len(found) != 1:
            raise Unsayable("a condition that is kept for later")
        return found[0]

    def _named(self, name: str, state: State) -> Any:
        """What a name stands for."""
        names = dict(state.names)
        if name in names:
            return names[name]
        if name in self.config.constants:
            return self._value(self.config.constants[name], State())
        if name in WELL_KNOWN:
            return WELL_KNOWN[name]
        if name in SYMBOLS:
            return self._known(name, state)
        if name.startswith(ENUMS):
            return name
        raise Unsayable("what `%s` is" % name)

    def _known(self, name: str, state: State) -> Any:
        """What is known of an attribute here, or the symbol for it."""
        if self.own is not None:
            where = Net(*self.own.where)
            own = {"net": where, "proto": self.own.proto, "source": self.own.source, "dest": self.own.dest}
            return own.get(name, Symbol(name))
        if SETTINGS.get(name) and state.value(SETTINGS[name]) is not None:
            return int(state.value(SETTINGS[name]) or 0)
        known: Dict[str, Any] = {"source": "RTS_BGP", "dest": "RTD_UNICAST"}
        if self.place.is_from_outside:
            known["bgp_local_pref"] = 100
        if self.place.way == "in":
            known.update({"proto": self.session.protocol, "from": self.session.name})
        return known.get(name, Symbol(name))

    def _part(self, whole: Any, name: str) -> Any:
        """A part of a value, as `net.len`."""
        if isinstance(whole, Net):
            known = {"len": whole.length, "ip": show_address(whole.value), "type": "NET_IP4"}
            return known.get(name, Symbol("net." + name))
        if isinstance(whole, Symbol) and whole.name == "bgp_path" and self.own is not None:
            return 0 if name in ("len", "first", "last") else Symbol("bgp_path." + name)
        if isinstance(whole, Symbol) and (whole.name, name) == ("net", "type"):
            return "NET_IP4"
        if isinstance(whole, Symbol):
            return Symbol("%s.%s" % (whole.name, name))
        raise Unsayable("a part `%s`" % name)
