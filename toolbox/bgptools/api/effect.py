"""What a change does, as data: what `what-if` tells, for the interface for Python."""
from __future__ import annotations

import html
from dataclasses import dataclass, field, fields
from typing import Dict, Iterable, List, Optional, Tuple

from ..change import comparison
from ..change.effect import Outcome
from ..change.report import standing_text, text_of
from ..convergence.delivery import Convergence
from ..convergence.run import converged_otherwise, not_converged
from ..network.configuration import Direction
from ..program import replies
from ..program.replies import Trace
from .tables import Table
from .values import Delivery, Message, Route, delivery_of, message_of, route_of


@dataclass(frozen=True)
class RouteChange:
    """A route of a router before and after: `gained`, `lost` or `moved`. `reason` says by what the old one loses now,
    or why it is gone. Of what a virtual peer is told, the peer is the router."""
    router: str
    prefix: str
    kind: str
    before: Optional[Route]
    after: Optional[Route]
    reason: str


@dataclass(frozen=True)
class WayChange:
    """A packet's way before and after, from a router to an address."""
    router: str
    address: str
    before: Trace
    after: Trace


@dataclass(frozen=True)
class Sent:
    """What a line of the change made a router send at once."""
    line: int
    command: str
    message: Message


@dataclass(frozen=True)
class InBetween:
    """What a router told a peer by one line of the change, and mended by a later one: `leaked`, `told otherwise` or
    `taken back`."""
    kind: str
    line: int
    until: int
    message: Message


@dataclass(frozen=True)
class Effect:
    """What a change does. `told` is what virtual peers are told otherwise; `loops` and `black_holes` are those of
    `forwarding` that are new ones; `asked` are the ways that were asked for. Where it does not converge,
    `keeps_changing` has each prefix with the routers that choose anew, and the rest is how it stood when the
    deliveries stopped. `text` is what the tool prints."""
    is_changed: bool
    is_converged: bool
    routes: Table[RouteChange]
    told: Table[RouteChange]
    sessions_down: List[Direction]
    sessions_up: List[Direction]
    forwarding: Table[WayChange]
    loops: Table[WayChange]
    black_holes: Table[WayChange]
    asked: Table[WayChange]
    sent: Table[Sent]
    in_between: Table[InBetween]
    deliveries: Table[Delivery]
    keeps_changing: Dict[str, List[str]]
    notes: List[str]
    text: str = field(repr=False)

    @property
    def lost(self) -> Table[RouteChange]:
        return self._routes("lost")

    @property
    def moved(self) -> Table[RouteChange]:
        return self._routes("moved")

    @property
    def gained(self) -> Table[RouteChange]:
        return self._routes("gained")

    def _routes(self, kind: str) -> Table[RouteChange]:
        return Table((each for each in self.routes if each.kind == kind), RouteChange)

    def _repr_html_(self) -> str:
        """What differs, for a notebook: a table for each field that has something, and the notes."""
        tables = [(each.name, getattr(self, each.name)) for each in fields(self) if each.name != "notes"]
        parts = ["<h4>%s</h4>%s" % (name.replace("_", " "), found._repr_html_())
                 for name, found in tables if isinstance(found, Table) and found]
        parts += ["<p>%s</p>" % html.escape(each) for each in self._words()]
        return "".join(parts)

    def _words(self) -> List[str]:
        """What differs beside the tables."""
        sessions = [("down", self.sessions_down), ("up", self.sessions_up)]
        told = ["The session of %s and %s went %s." % (*both, way) for way, found in sessions for both in found]
        return told + self.notes + ([] if self.is_changed else ["Nothing changed."])


def effect_of(outcome: Outcome) -> Effect:
    """The outcome of a change."""
    found, endless = outcome.difference, outcome.not_converged
    return Effect(
        is_changed=outcome.is_changed, is_converged=endless is None,
        routes=Table((_change(router, each) for router, changes in found.routers.items() for each in changes), RouteChange),
        told=Table((_change(peer, each, router) for (router, peer), changes in found.told.items() for each in changes),
                   RouteChange),
        sessions_down=found.down, sessions_up=found.up, forwarding=_ways(found.ways), loops=_ways(found.loops),
        black_holes=_ways(found.black_holes), asked=_ways(found.asked), sent=_sent(outcome),
        in_between=Table((InBetween(each.kind, each.line.number, each.until.number,
                                    message_of(each.sender, each.receiver, each.message)) for each in outcome.passing),
                         InBetween),
        deliveries=Table((each for done in outcome.done for each in deliveries_of(done)), Delivery),
        keeps_changing=endless.restless if endless else {}, notes=_notes(outcome), text=text_of(outcome, False))


def _notes(outcome: Outcome) -> List[str]:
    """What is told of the orders of deliveries: which was needed, or that none converges."""
    names, endless = outcome.network.names, outcome.not_converged
    told = [converged_otherwise(done, names) for done in [outcome.base] + outcome.done if done.first]
    told += standing_text(outcome.difference)
    return list(outcome.broken) + told + ([not_converged(endless, names)] if endless else [])


def deliveries_of(done: Convergence) -> Tuple[Delivery, ...]:
    """What was delivered."""
    return tuple(delivery_of(*way, took) for way, took in zip(done.deliveries, done.taken))


def _change(router: str, change: comparison.Change, source: str = "") -> RouteChange:
    before, after = (_route(router, told, source) for told in (change.before, change.after))
    return RouteChange(router, change.prefix, change.kind, before, after, change.reason)


def _route(router: str, told: Optional[replies.Route], source: str) -> Optional[Route]:
    return None if told is None else route_of(router, source or str(told.source), told)


def _ways(ways: Iterable[comparison.Way]) -> Table[WayChange]:
    return Table((WayChange(way.router, way.address, way.before, way.after) for way in ways), WayChange)


def _sent(outcome: Outcome) -> Table[Sent]:
    return Table((Sent(sent.line.number, " ".join(sent.line.words), message_of(*way, message))
                  for sent in outcome.watch.sent for way, messages in sent.messages.items() for message in messages), Sent)
