"""What the tools tell as JSON, from the data classes of this interface."""
from __future__ import annotations

from typing import Any, Dict, List, Optional

from ..change.advertised_routes import Advert, changes
from ..change.explanation import Explained
from ..change.timeline import Timeline
from ..convergence.all_states import AllStates, PrefixStates
from ..convergence.delivery import Convergence
from ..convergence.run import told_of, not_converged
from ..convergence.stable_states import Found
from ..convergence.tables_by_prefix import Tables
from ..migration import document as migration
from ..network.configuration import Network
from ..program import replies, times
from ..program.documents import Document, document, line_of, plain, text_of
from ..program.language import readable
from ..program.names import Names
from ..program.script import Line
from .effect import Effect, deliveries_of
from .reply import reply_of
from .values import Route, explanation_of, route_of, routes_of

__all__ = ["Document", "advertisement", "all_stable_states", "effect", "explanations", "line_of", "reply", "stable_states",
           "tables", "text_of", "timeline"]


def convergence_of(done: Convergence, names: Names) -> Dict[str, Any]:
    """The deliveries that emptied all queues, or did not."""
    return {"converged": done.is_converged, "order": done.order.words, "deliveries": plain(deliveries_of(done)),
            "note": told_of(done, names), "keeps_changing": done.restless}


def reply(line: Line, told: List[str], network: Network, done: Optional[Convergence]) -> Document:
    """The reply to a line of a script, and the deliveries after it."""
    number = replies.refusal(told)
    is_expected = line.expected is not None and line.expected in (0, number)
    found = plain(reply_of(line.text, told, network))
    more = {} if done is None else {"convergence": convergence_of(done, network.names)}
    return document("play", file=line.file, line=line.number, command=readable(line.text), reply=found,
                    expected=is_expected if number else line.expected is None, **more)


def explanations(router: str, prefix: str, found: List[Explained], network: Network,
                 done: Optional[Convergence]) -> Document:
    """All routes of a router to a prefix."""
    told = [explanation_of(router, prefix, each, found, network) for each in found]
    return document("explain", router=router, prefix=prefix, routes=told, names=network.names.of,
                    convergence=done and convergence_of(done, network.names))


def advertisement(router: str, peer: str, prefix: str, found: Advert, network: Network,
                  done: Optional[Convergence]) -> Document:
    """What a router advertises to a peer, or why nothing."""
    chosen = found.chosen and route_of(router, str(found.chosen.source), found.chosen)
    said = found.said and route_of(peer, router, replies.Route(prefix, router, found.said))
    changed = changes(found.chosen.attributes, found.made) if found.made and found.chosen else []
    return document("explain", router=router, peer=peer, prefix=prefix, chosen=chosen, advertised=said,
                    why_not=[why.strip() for why in found.whys], rule=found.rule or None,
                    changes=[{"attribute": name, "change": text} for name, text in changed], doubts=found.doubts,
                    waiting=found.is_waiting, names=network.names.of,
                    convergence=done and convergence_of(done, network.names))


def timeline(script: str, found: Timeline, network: Network) -> Document:
    """What a router chose, from which time on."""
    told = [{"time": _time(each.time), "line": each.line.number, "command": readable(each.line.text),
             "route": each.route and route_of(found.router, str(each.route.source), each.route),
             "next_as": each.next_as, "reason": each.reason} for each in found.choices]
    return document("timeline", script=script, router=found.router, prefix=found.prefix, begin=_time(found.begin),
                    end=_time(found.end), choices=told, names=network.names.of,
                    note=not_converged(found.endless, network.names) if found.endless else "",
                    converged=found.endless is None)


def _time(time: Optional[int]) -> Optional[str]:
    return None if time is None else times.told(time)


def effect(base: str, change: str, found: Effect, names: Names, **more: Any) -> Document:
    """What a change does; `more` are the fields of two configurations that were compared."""
    return document("what-if", base=base, change=change, **plain(found), **(more or migration.NONE), names=names.of)


def stable_states(script: str, found: Found) -> Document:
    """The stable states that random orders end in, each with the routes by which it differs from the others."""
    differing = found.differing()
    states = [{"seeds": state.seeds, "routes": [
        {"router": router, "prefix": prefix, "route": _route(router, state.routes.get((router, prefix)))}
        for router, prefix in differing]} for state in found.states]
    endless = [{"seed": seed, "deliveries": len(done.deliveries), "period": done.period,
                "keeps_changing": done.restless, "note": not_converged(done, found.names)}
               for seed, done in found.endless.items()]
    return document("converge", script=script, orders=found.count, states=states, not_converged=endless,
                    names=found.names.of)


def all_stable_states(script: str, found: AllStates) -> Document:
    """All stable states of each prefix, with the routes by which each differs from the others."""
    prefixes = [{"prefix": each.prefix, "cut_off": each.cut_off or None, "candidate_routes": each.candidates,
                 "states": [_state(each, number) for number in range(1, len(each.states) + 1)]}
                for each in found.prefixes]
    return document("converge", script=script, prefixes=prefixes, names=found.names.of)


def _state(found: PrefixStates, number: int) -> Dict[str, Any]:
    """A stable state of a prefix, by its number."""
    state = found.states[number - 1]
    routes = [{"router": router, "prefix": found.prefix, "route": _route(router, found.route(state, router))}
              for router in found.differing()]
    deliveries = None if state.deliveries is None else [list(way) for way in state.deliveries]
    return {"number": number, "deliveries": deliveries, "routes": routes}


def tables(script: str, found: Tables) -> Document:
    """The chosen routes of all routers, in order of router and prefix."""
    routes = [route for router in found.routers for part in found.parts
              for route in routes_of(router, part[router].decode("latin-1").splitlines() + ["end"])]
    return document("converge", script=script, routes=routes)


def _route(router: str, told: Optional[replies.Route]) -> Optional[Route]:
    return None if told is None else route_of(router, str(told.source), told)
