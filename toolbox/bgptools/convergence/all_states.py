"""All stable states of a network, for each prefix apart: how many there are, where they differ, and how each is
reached. Unlike `stable_states`, which sees where random orders end, it finds them by the network's policies."""
from __future__ import annotations

from dataclasses import dataclass, field
from typing import Dict, List, Optional

from ..network.prefix_parts import prefix_of
from ..program.language import by_prefix
from ..program.mistakes import Mistake
from ..program.names import Names
from ..program.output import Progress
from ..program.replies import Route, route_text
from ..program.script import MARK, Line
from .assignments import CutOff, Routes, Search
from .candidate_routes import Prober, roots_of
from .delivery_script import DeliveryScript
from .run import Run, is_delivery
from .state_deliveries import State, reach

# So many candidate routes of a prefix, steps of the search, and states of a prefix.
BOUND, STATES = 20000, 256


@dataclass
class PrefixStates:
    """The stable states for a prefix; and why there may be more, if the search was too large."""
    prefix: str
    states: List[State] = field(default_factory=list)
    cut_off: str = ""
    candidates: int = 0

    def differing(self) -> List[str]:
        """The routers that choose otherwise in one state than in another."""
        routers = self.states[0].chosen if self.states else {}
        return [router for router in routers
                if len({_told(state, router, self.prefix) for state in self.states}) > 1]

    def route(self, state: State, router: str) -> Optional[Route]:
        """The route that a router chooses in a state."""
        return _told(state, router, self.prefix)

    @property
    def is_whole(self) -> bool:
        """Whether all states were found and reached, and there is one."""
        return bool(self.states) and not self.cut_off and all(state.deliveries is not None for state in self.states)


@dataclass
class AllStates:
    """The stable states for each prefix of a script, and how many of its own deliveries were left out."""
    prefixes: List[PrefixStates] = field(default_factory=list)
    names: Names = field(default_factory=Names)
    left_out: int = 0


def _told(state: State, router: str, prefix: str) -> Optional[Route]:
    each = state.chosen[router]
    return Route(prefix, each.source, each.attributes) if each else None


def undelivered(lines: List[Line]) -> List[Line]:
    """A script without its own deliveries, and without the marks of refusals in lines of their own."""
    return [line for line in lines if not is_delivery(line.text) and (line.is_command or not MARK.fullmatch(line.text))]


def part_of(lines: List[Line], prefix: str) -> List[Line]:
    """The lines of a script that tell of this prefix or of none."""
    return [line for line in lines if prefix_of(line) in ("", prefix)]


def _states(routes: Routes, bound: int, found: PrefixStates) -> None:
    """The states of a prefix, from the routes that routers can hold."""
    if not routes.collect():
        return
    for numbers in Search(routes, bound).stable():
        if len(found.states) >= STATES:
            raise CutOff("stable states", STATES)
        found.states.append(_state(routes, numbers))


def _state(routes: Routes, numbers: Dict[str, Optional[int]]) -> State:
    chosen = {router: None if number is None else routes.candidate(number) for router, number in numbers.items()}
    offers = {(router, peer): routes.candidate(other) for router, number in numbers.items() if number is not None
              for peer, other in routes.offers[number].items()}
    fed = {(root.source, root.router): routes.candidate(number) for number, root in routes.root_of.items()
           if root.fed is not None}
    return State(chosen, {**offers, **fed})


def _of_prefix(lines: List[Line], prefix: str, bound: int, progress: Progress) -> PrefixStates:
    """The states for one prefix, of a script without deliveries."""
    found, part = PrefixStates(prefix), part_of(lines, prefix)
    with Run() as run:
        run.play(part)
        roots = roots_of(run, prefix)
        with Prober(run, prefix) as prober:
            routes = None
            try:
                routes = Routes(prober, roots, bound, lambda text: progress.tell("%s: %s" % (prefix, text)))
                _states(routes, bound, found)
            except CutOff as fault:
                found.cut_off = str(fault)
            found.candidates = len(routes.held) if routes else bound
    found.states.sort(key=lambda state: [str(_told(state, router, prefix)) for router in state.chosen])
    progress.tell("%s: %d stable states .." % (prefix, len(found.states)))
    reach(part, prefix, found.states)
    return found


def find(lines: List[Line], only: Optional[str] = None, bound: Optional[int] = None) -> AllStates:
    """The stable states of the network that a script ends with, for each prefix, or for one. Deliveries of the script
    are left out. Mistake where it has no such prefix."""
    kept, found, progress = undelivered(lines), AllStates(), Progress()
    found.left_out = sum(is_delivery(line.text) for line in lines)
    with Run() as run:
        run.play(kept)
        prefixes = sorted(run.network.prefixes, key=by_prefix)
        found.names = run.network.names
    if only is not None and only not in prefixes:
        known = ", ".join(prefixes[:8]) or "no prefix"
        raise Mistake("--prefix %s: the script originates and feeds %s" % (only, known))
    for prefix in prefixes if only is None else [only]:
        found.prefixes.append(_of_prefix(kept, prefix, BOUND if bound is None else bound, progress))
    progress.done()
    return found


def script_of(lines: List[Line], found: AllStates, number: int) -> List[str]:
    """The script with the deliveries that reach a state of this number, counted from 1. Mistake where there is none."""
    if len(found.prefixes) != 1:
        named = ", ".join(each.prefix for each in found.prefixes[:8]) or "there is none"
        raise Mistake("--state %d: --prefix P is expected, to say of which prefix: %s" % (number, named))
    of = found.prefixes[0]
    if not 1 <= number <= len(of.states):
        expected = "a number of 1 to %d is expected; " % len(of.states) if of.states else ""
        raise Mistake("--state %d: %s%s" % (number, expected, _heading(of)))
    state = of.states[number - 1]
    if state.deliveries is None:
        raise Mistake("--state %d: no deliveries were found that reach this state of %s" % (number, of.prefix))
    written = DeliveryScript()
    for line in part_of(undelivered(lines), of.prefix):
        written.take(line)
    heading = "# step State %d of %d for %s" % (number, len(of.states), of.prefix)
    return written.lines + [heading] + ["deliver %s %s" % way for way in state.deliveries]


def _counted(count: int, one: str, more: str) -> str:
    return "%d %s" % (count, one if count == 1 else more)


def _heading(found: PrefixStates) -> str:
    """How many states there are for a prefix."""
    if found.cut_off:
        return "%s: at least %s; the search was cut off at %s, and --bound N allows more" % (
            found.prefix, _counted(len(found.states), "stable state", "stable states"), found.cut_off)
    if not found.states:
        return "%s: no stable state: it converges in no order of messages" % found.prefix
    return "%s: %s" % (found.prefix, _counted(len(found.states), "stable state", "stable states"))


def _lines(found: PrefixStates, names: Names) -> List[str]:
    """The states of a prefix, each with the routes by which it differs from the others."""
    lines, differing = [_heading(found)], found.differing()
    for number, state in enumerate(found.states, 1):
        count = state.deliveries
        how = "not reached by the orders that were tried" if count is None else "reached by %s" % (
            _counted(len(count), "delivery", "deliveries"))
        lines.append("State %d: %s" % (number, how))
        for router in differing:
            route = _told(state, router, found.prefix)
            told = route_text(route, names) if route else "no route"
            lines.append("  %s at %s: %s" % (found.prefix, names.shown(router), told))
    return lines


def text_of(found: AllStates) -> str:
    """What was found, for a reader."""
    return "".join(line + "\n" for each in found.prefixes for line in _lines(each, found.names))
