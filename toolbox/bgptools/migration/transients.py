"""What is lost or leaked on the way from one network to another: seen behind each step, once all messages are
delivered, beside what both networks choose, send and forward."""
from __future__ import annotations

from dataclasses import dataclass
from typing import Dict, List, NamedTuple, Optional, Set, Tuple

from ..change.comparison import Packet, packets_of
from ..change.transients import Passing, Watch
from ..convergence.delivery import Convergence
from ..convergence.run import Run
from ..network.answers import Answers
from ..network.configuration import Direction
from ..program.output import Progress
from ..program.replies import routes, trace
from ..program.script import Line
from .steps import Step

# A kind, who it concerns (a router, and the peer that it sends to), and a prefix or an address.
Subject = Tuple[str, str, str, str]


class Temporary(NamedTuple):
    """What is so behind some steps only, by their numbers. `lost`: a router has no route that it has in both networks;
    `leaked`: a router sends a peer a prefix that it sends in neither; `unreached`: packets of a router do not reach an
    address that they reach in both. `until` is the step that ends it."""
    kind: str
    router: str
    peer: str
    about: str
    since: int
    until: int


class View:
    """What a network answers: the prefixes of each router, those sent over external sessions, and packets that
    reach."""

    def __init__(self, run: Answers, packets: List[Packet]) -> None:
        routers = run.network.routers()
        ways = [way for way in run.network.directions() if run.network.is_external(*way)]
        self.has = {(router, where) for router, reply in zip(routers, run.ask("routes " + each for each in routers))
                    for where in routes(reply)}
        self.sends = {(*way, where) for way, reply in zip(ways, run.ask("out %s %s" % way for way in ways))
                      for where in routes(reply)}
        known = [packet for packet in packets if run.network.is_router(packet[0])]
        self.reached = {packet for packet, reply in zip(known, run.ask("trace %s %s" % packet for packet in known))
                        if trace(reply).end == "reached"}


@dataclass
class Played:
    """The steps played one after the other. `passing` is what a policy let out until a later command; `differs` are
    the routers that end with other routes than in NEW."""
    steps: List[Step]
    temporary: List[Temporary]
    passing: List[Passing]
    done: List[Convergence]
    differs: List[str]

    @property
    def within(self) -> List[Passing]:
        """What a policy let out, or made a router withdraw, between two commands of one step."""
        return [each for each in self.passing if each.line.number == each.until.number]

    @property
    def not_converged(self) -> Optional[int]:
        """The number of the first step that does not converge."""
        return next((number for number, done in enumerate(self.done, 1) if not done.is_converged), None)


def play(old: Run, new: Run, found: List[Step]) -> Played:
    """Plays the steps on OLD, which it changes; raises Refusal where a command is refused."""
    packets = packets_of(old.network, new.network)
    before, after, watch = View(old, packets), View(new, packets), Watch(old)
    seen: List[Set[Subject]] = []
    done: List[Convergence] = []
    progress = Progress()
    for number, step in enumerate(found, 1):
        progress.tell("step %d of %d .." % (number, len(found)))
        for command in step.commands:
            line = Line("step", number, command)
            old.check(line, watch.say(line))
        done.append(old.converge())
        watch.converged()
        seen.append(_wrong(View(old, packets), before, after) if number < len(found) else set())
        if not done[-1].is_converged:
            break
    progress.done()
    return Played(found, _temporary(seen), watch.passing(), done, _differing(old, new))


def _wrong(here: View, before: View, after: View) -> Set[Subject]:
    """What is otherwise than in both networks."""
    lost = {("lost", router, "", where) for router, where in before.has & after.has - here.has}
    leaked = {("leaked", *each) for each in here.sends - before.sends - after.sends}
    unreached = {("unreached", router, "", to) for router, to in before.reached & after.reached - here.reached}
    return lost | leaked | unreached


def _temporary(seen: List[Set[Subject]]) -> List[Temporary]:
    """From which step until which each is so."""
    found: List[Temporary] = []
    since: Dict[Subject, int] = {}
    for number, now in enumerate(seen, 1):
        found += [Temporary(*subject, since.pop(subject), number) for subject in sorted({*since} - now)]
        for subject in now:
            since.setdefault(subject, number)
    return sorted(found, key=lambda each: (each.since, each))


def _differing(steps: Run, new: Run) -> List[str]:
    """The routers of NEW that have other routes behind the steps."""
    routers = new.network.routers()
    questions = ["routes " + each for each in routers]
    return [router for router, here, there in zip(routers, steps.ask(questions), new.ask(questions)) if here != there]


def directions(found: List[Temporary]) -> List[Direction]:
    """Over which sessions something leaks."""
    return list(dict.fromkeys((each.router, each.peer) for each in found if each.kind == "leaked"))
