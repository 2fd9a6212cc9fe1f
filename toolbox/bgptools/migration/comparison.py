"""Two configurations, both converged from nothing and compared."""
from __future__ import annotations

import argparse
from dataclasses import dataclass, field
from typing import Dict, List, Optional, Tuple

from ..change.comparison import Packet, compare
from ..change.effect import Outcome
from ..change.transients import Watch
from ..change.what_if import broken
from ..convergence.delivery import Convergence
from ..convergence.orders import order_of
from ..convergence.run import Run, not_converged
from ..network.configuration import pair
from ..program.language import address, by_address
from ..program.mistakes import Mistake
from ..program.script import Line
from . import steps, transients
from .difference import LeftOut, PartChange, differences, left_out
from .parts import Feeds, feeds_of, parts_of
from .side import Side


@dataclass
class Comparison:
    """What differs: parts of the configuration, what importers left out, and what that does. `unfed` are the lines of
    feeds that one side has no session for, with that side; `silent` the virtual peers that send nothing."""
    before: Side
    after: Side
    parts: List[PartChange]
    left_out: LeftOut
    outcome: Outcome
    played: Optional[transients.Played] = None
    unfed: List[Tuple[Line, Side]] = field(default_factory=list)
    silent: List[str] = field(default_factory=list)

    @property
    def is_changed(self) -> bool:
        """Whether a route, a session or a packet may go otherwise, if only for a while."""
        is_otherwise = self.played is not None and bool(
            self.played.temporary or self.played.within or self.played.differs or self.played.not_converged)
        return self.outcome.is_changed or self.left_out.decides or is_otherwise


def compared(before: Side, after: Side, feeds: List[Line], chosen: argparse.Namespace,
             asked: List[Tuple[str, str]]) -> Comparison:
    """Converges both sides with these feeds, and compares them; with `chosen.steps` also plays the steps.

    Raises Mistake where OLD does not converge, a line is refused, or no commands lead to NEW."""
    unfed: List[Tuple[Line, Side]] = []
    with _run(chosen) as old, _run(chosen) as new:
        for run, side in ((old, before), (new, after)):
            unfed += _play(run, side, feeds)
        _check_fed(unfed)
        converged, done = old.converge(), new.converge()
        if not converged.is_converged:
            raise Mistake("it does not converge: " + not_converged(converged, old.network.names), before.path)
        for where, name in old.network.names.of.items():
            new.network.names.of.setdefault(where, name)
        fed, will = feeds_of(old.lines), feeds_of(new.lines)
        parts = differences(parts_of(old.network, fed), parts_of(new.network, will), before, after)
        outcome = Outcome(compare(old, new, _packets(old, new, asked)), Watch(new), converged, _told(done),
                          broken(chosen.invariants, old, new))
        found = Comparison(before, after, parts, left_out(before, after), outcome, unfed=unfed,
                           silent=_silent([(old, fed), (new, will)]))
        if chosen.steps and done.is_converged:
            found.played = transients.play(old, new, steps.steps(old.network, new.network, fed, will))
    return found


def _run(chosen: argparse.Namespace) -> Run:
    return Run(order_of(chosen), chosen.most, tries_others=True)


def _play(run: Run, side: Side, feeds: List[Line]) -> List[Tuple[Line, Side]]:
    """Plays a side and the feeds: those that it has no session for."""
    run.play(side.lines)
    unfed = []
    for line in feeds:
        words = line.words
        if words[:1] == ["feed"] and len(words) > 2 and pair(words[1], words[2]) not in run.network.enabled:
            unfed.append((line, side))
        else:
            run.check(line, run.say(line.text))
    return unfed


def _check_fed(unfed: List[Tuple[Line, Side]]) -> None:
    """Raises Mistake where a line of feeds is of neither side."""
    lines = [line for line, _ in unfed]
    both = next((line for line in lines if lines.count(line) > 1), None)
    if both is not None:
        raise Mistake("neither OLD nor NEW has a session of %s and %s; write the addresses of one that is there, as "
                      "`join A B` has them" % (both.words[1], both.words[2]), both.file, both.number)


def _told(done: Convergence) -> List[Convergence]:
    """The deliveries of NEW, if there is something to tell of them: those from nothing are no effect of the change."""
    return [done] if done.first or not done.is_converged else []


def _packets(old: Run, new: Run, asked: List[Tuple[str, str]]) -> List[Packet]:
    """The packets that are asked for, by addresses; raises Mistake where one begins at no router of both sides."""
    names, found = new.network.names, []
    for router, to in asked:
        one, other = names.address_of(router), names.address_of(to)
        if not (old.network.is_router(one) and new.network.is_router(one)):
            raise Mistake("--trace %s %s: %s is no router of both OLD and NEW" % (router, to, router))
        if address(other) is None:
            raise Mistake("--trace %s %s: an address is expected, as 198.51.100.1" % (router, to))
        found.append((one, other))
    return found


def _silent(sides: List[Tuple[Run, Feeds]]) -> List[str]:
    """The virtual peers that send nothing on some side that has them, in order of address."""
    found: Dict[str, None] = {}
    for run, feeds in sides:
        heard = {peer for peer, _, _ in feeds}
        found.update(dict.fromkeys(each for each in run.network.virtuals() if each not in heard))
    return sorted(found, key=by_address)
