"""Two networks compared, router by router: what the program answers before a change and after it."""
from __future__ import annotations

from dataclasses import dataclass, field
from typing import Callable, Dict, List, Optional, Set, Tuple

from ..network.answers import Answers
from ..network.configuration import Direction, Network, Pair, pair
from ..network.probes import probes_of
from ..program import communities
from ..program.language import by_address, by_prefix, show_address, words_of
from ..program.language_table import BEST
from ..program.output import Progress
from ..program.reasons import named
from ..program.replies import Route, Trace, best, reasons, routes, trace

# A packet, by the router that it starts at and the address that it is for.
Packet = Tuple[str, str]
NO_ROUTES = ["end 0"]


@dataclass
class Change:
    """A route before and after; `reason` says by what the old one loses now, or why it is gone."""
    prefix: str
    before: Optional[Route]
    after: Optional[Route]
    reason: str = ""

    @property
    def kind(self) -> str:
        return "gained" if self.before is None else "lost" if self.after is None else "moved"


@dataclass
class Way:
    """A packet's way before and after."""
    router: str
    address: str
    before: Trace
    after: Trace


@dataclass
class Difference:
    """What differs. `standing` are the packets that go round before and after."""
    routers: Dict[str, List[Change]] = field(default_factory=dict)
    came: List[str] = field(default_factory=list)
    gone: List[str] = field(default_factory=list)
    down: List[Direction] = field(default_factory=list)
    up: List[Direction] = field(default_factory=list)
    told: Dict[Direction, List[Change]] = field(default_factory=dict)
    ways: List[Way] = field(default_factory=list)
    asked: List[Way] = field(default_factory=list)
    standing: List[Way] = field(default_factory=list)

    @property
    def loops(self) -> List[Way]:
        return [way for way in self.ways if way.after.end == "loop" != way.before.end]

    @property
    def black_holes(self) -> List[Way]:
        return [way for way in self.ways if way.after.end == "noroute" and way.before.end == "reached"]

    @property
    def is_any(self) -> bool:
        return bool(self.routers or self.came or self.gone or self.down or self.up or self.told or self.ways or any(way.before != way.after for way in self.asked))


def compare(before: Answers, after: Answers, asked: List[Packet],
            chosen: Optional[Callable[[Difference], List[Packet]]] = None, has_reasons: bool = True) -> Difference:
    """What differs between two runs, of a network and of the same with a change or of two networks, and how the packets
    go that are asked for.

    Packets are followed from all routers to an address of each prefix; or, where it is given, those of `chosen`,
    which is told what differs so far. Why old routes lost is looked up where `has_reasons`."""
    found = Difference(came=[r for r in after.network.routers() if not before.network.is_router(r)],
                       gone=[r for r in before.network.routers() if not after.network.is_router(r)])
    _compare_sessions(before, after, found)
    _compare_routes(before, after, found)
    if has_reasons:
        _tell_why(before, after, found)
    _compare_told(before, after, found)
    packets = chosen(found) if chosen else packets_of(before.network, after.network)
    followed = _ways(before, after, packets, lambda old, new: old != new or old[-2].startswith("loop "))
    found.ways = [way for way in followed if way.before != way.after]
    found.standing = [way for way in followed if way.before.end == way.after.end == "loop"]
    found.asked = _ways(before, after, asked, lambda *_: True)
    return found


def _changes(old: Dict[str, Route], new: Dict[str, Route]) -> List[Change]:
    return [Change(p, old.get(p), new.get(p)) for p in sorted({*old, *new}, key=by_prefix) if old.get(p) != new.get(p)]


def is_gained_outside(network: Network, router: str, change: Change) -> bool:
    """Whether a router gained a route, its own or one from another AS: a leak or a hijack shows there, and what it does
    inside an AS does not."""
    source = change.after.source if change.before is None and change.after else None
    return source == "self" or source in network.nodes and network.is_external(router, str(source))


def packets_of(before: Network, after: Network) -> List[Packet]:
    """Packets from each router that was there before to an address of each prefix."""
    everywhere = [r for r in before.routers() if after.is_router(r)]
    return [(r, show_address(d)) for d in probes_of(before.prefixes | after.prefixes) for r in everywhere]


def _tables(run: Answers) -> Dict[str, List[str]]:
    routers = run.network.routers()
    return dict(zip(routers, run.ask("routes " + router for router in routers)))


def _compare_routes(before: Answers, after: Answers, found: Difference) -> None:
    old, new = _tables(before), _tables(after)
    for router in new:
        if new[router] != old.get(router, NO_ROUTES):
            found.routers[router] = _changes(*_differing(old.get(router, NO_ROUTES), new[router]))


def _differing(old: List[str], new: List[str]) -> Tuple[Dict[str, Route], Dict[str, Route]]:
    """The routes of two replies that are not in both."""
    same = {*old} & {*new}
    before, after = ([line for line in reply[:-1] if line not in same] + reply[-1:] for reply in (old, new))
    return routes(before), routes(after)


def _tell_why(before: Answers, after: Answers, found: Difference) -> None:
    """By what each route that was chosen before loses now: as `why` says, or why it is not among what the router has."""
    asked = [(router, change, change.before.source) for router, changes in found.routers.items() for change in changes
             if change.before and change.before.source]
    is_same = after.lines[:len(before.lines)] == before.lines
    stopped = _stopped(after.lines[len(before.lines):]) if is_same else set()
    for (router, change, source), reply in zip(asked, after.ask("why %s %s" % (router, change.prefix) for router, change, _ in asked)):
        shown = after.network.names.shown(source)
        change.reason = reason_now(reply, source, router in after.network.med_always)
        if change.reason:
            continue
        if (router, source) in found.down or (source, router) in found.down:
            change.reason = "the session with %s is down" % shown
        elif pair(router, source) in stopped and not after.network.is_router(source):
            change.reason = "the session with %s was down for a while, and it was not fed again" % shown
        else:
            kept = _kept_back(after, source, router, change.prefix)
            kept = ": it chose a route that carries " + kept if kept else ""
            change.reason = "%s does not tell it any more%s" % (shown, kept)


def reason_now(reply: List[str], source: str, is_med_always: bool) -> str:
    """Why a route that was chosen is not any more, by the reply to `why`; empty where it is not among what the router
    has: the peer does not tell it then."""
    reason = dict(reasons(reply)).get(source)
    if reason == BEST:
        return "it comes from the same, with other attributes"
    if reason:
        return named(reason, is_med_always)
    return "it is no longer originated here" if source == "self" else ""


def _kept_back(run: Answers, router: str, peer: str, to: str) -> str:
    """The communities by which a router does not tell a peer the route that it chose; empty where it has none."""
    if not run.network.communities or not run.network.is_router(router):
        return ""
    chosen = best(run.ask(["best %s %s" % (router, to)])[0])
    if chosen is None or chosen.source == peer:
        return ""
    keeping = communities.withholding(chosen.attributes.communities, run.network.is_external(router, peer))
    return communities.told(keeping) if keeping else ""


def _stopped(lines: List[str]) -> Set[Pair]:
    """The ends that lines of a change parted, if only for a while."""
    return {pair(words[1], words[2]) for words in map(words_of, lines) if words[0] in ("stop", "fail")}


def _compare_sessions(before: Answers, after: Answers, found: Difference) -> None:
    old, new = before.sessions_up(), after.sessions_up()
    found.down = [way for way in [*new, *(way for way in old if way not in new)] if old.get(way, False)
                  and not new.get(way, False)]
    found.up = [way for way in new if new[way] and not old.get(way, False)]


def _compare_told(before: Answers, after: Answers, found: Difference) -> None:
    """What virtual peers are told: they are the external neighbours that no router's table shows."""
    for router, peer in _told_ways(before, after):
        old, new = (routes(run.ask(["out %s %s" % (router, peer)])[0])
                    if _is_told(run, router, peer) else {} for run in (before, after))
        changes = _changes(old, new)
        is_up = _is_told(after, router, peer) and after.sessions_up([(router, peer)])[router, peer]
        for change in (each for each in changes if each.after is None and is_up):
            kept = _kept_back(after, router, peer, change.prefix)
            shown = after.network.names.shown(router)
            change.reason = "%s chose a route that carries %s" % (shown, kept) if kept else ""
        if changes:
            found.told[router, peer] = changes


def _told_ways(before: Answers, after: Answers) -> List[Direction]:
    """The sessions with virtual peers, from the router's side: those of after first."""
    found = [(router, peer) for run in (after, before) for peer in run.network.virtuals()
             for router in sorted(run.network.peers.get(peer, ()), key=by_address)]
    return list(dict.fromkeys(found))


def _is_told(run: Answers, router: str, peer: str) -> bool:
    """Whether a network has the session of a router with a virtual peer."""
    return not run.network.is_router(peer) and peer in run.network.peers.get(router, ())


def _ways(before: Answers, after: Answers, asked: List[Packet],
          is_wanted: Callable[[List[str], List[str]], bool]) -> List[Way]:
    """How those of these packets go that are wanted, by the replies to `trace` before and after."""
    progress, found = Progress(), []
    for start in range(0, len(asked), 500):
        part = asked[start:start + 500]
        lines = ["trace %s %s" % each for each in part]
        for (router, to), old, new in zip(part, before.ask(lines), after.ask(lines)):
            if is_wanted(old, new):
                found.append(Way(router, to, trace(old), trace(new)))
        progress.tell("%d of %d packets followed .." % (start, len(asked)))
    progress.done()
    return found
