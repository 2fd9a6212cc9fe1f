"""All checks of a network, and what they found."""
from __future__ import annotations

from dataclasses import dataclass, field
from typing import Iterator, List, Optional, Set

from ..convergence.run import Run
from ..invariants.language import Invariants, invariants_in
from ..invariants.state import State
from ..invariants.verdicts import Breach, breaches
from ..network.configuration import Network
from ..program.language import contains, prefix
from ..program.names import Names
from ..program.script import Line
from . import failures, orders
from .finding import Finding, in_order
from .forwarding import Cell, Ways, black_holes, lacking, loops
from .next_hops import unresolved
from .redundancy import single_sessions
from .sessions import down
from .transit import transit


@dataclass(frozen=True)
class Asked:
    """What is to be checked. `script` is the name of the file, `lines` what is in it; `invariants` is another file.
    `randoms` counts random orders; `jobs` processes try failures, if any are wanted."""
    script: str
    lines: List[Line]
    invariants: Optional[str] = None
    most: Optional[int] = None
    randoms: int = 3
    has_failures: bool = False
    jobs: int = 1


@dataclass
class Checked:
    """The findings, the most serious first, and the size of what was looked at."""
    script: str
    names: Names
    found: List[Finding] = field(default_factory=list)
    routers: int = 0
    prefixes: int = 0
    packets: int = 0

    @property
    def wrong(self) -> List[Finding]:
        """The findings that are no notes."""
        return [each for each in self.found if not each.is_note]

    @property
    def notes(self) -> List[Finding]:
        """The others."""
        return [each for each in self.found if each.is_note]


def check(asked: Asked) -> Checked:
    """Converges the network and checks it. Mistake where a line is refused, or the invariants have one."""
    with Run(None, asked.most, tries_others=True) as run:
        run.play(asked.lines)
        done, network = run.converge(), run.network
        invariants = invariants_in(asked.invariants, network) if asked.invariants else Invariants()
        found = Checked(asked.script, network.names, routers=len(network.routers()), prefixes=len(network.prefixes))
        if not done.is_converged:
            tried = 1 + len(done.others)
            found.found = [orders.oscillation(done, tried, tried, asked.script, network.names)]
            return found
        state = State(run)
        ways = Ways(state, asked.script)
        found.packets = ways.count
        made = [*_at(ways, invariants)]
    made += orders.states(asked.lines, asked.script, asked.most, orders.orders(asked.randoms))
    if asked.has_failures:
        made += failures.single_points(asked.lines, asked.script, asked.most, asked.jobs)
    found.found = in_order(made)
    return found


def _at(ways: Ways, invariants: Invariants) -> Iterator[Finding]:
    """What is found in the converged network itself."""
    yield from (_broken(each, ways) for each in breaches(invariants, ways.state))
    yield from loops(ways)
    yield from black_holes(ways)
    yield from unresolved(ways)
    yield from lacking(ways, _isolated(invariants, ways.state.network))
    yield from down(ways.state)
    yield from single_sessions(ways.state)
    yield from transit(ways.state, invariants.roles)


def _broken(breach: Breach, ways: Ways) -> Finding:
    """The finding of a broken invariant."""
    rule, router, peer = breach.rule, breach.router, breach.peer
    look = "line %d of %s" % (rule.number, rule.file) if rule else "the export policy"
    if router is not None:
        call = ways.look(router, breach.prefixes[0])
        to = " --to %s" % ways.state.network.names.of.get(peer, peer) if peer else ""
        look = "%s%s`" % (call.rstrip("`"), to)
    return Finding(breach.kind, breach.text, look, len(breach.prefixes) or 1, router, breach.prefixes, breach.way)


def _isolated(invariants: Invariants, network: Network) -> Set[Cell]:
    """The routers and prefixes between which invariants ask for isolation."""
    found: Set[Cell] = set()
    for rule in (each for each in invariants.listed if each.kind == "isolation"):
        outer = prefix(rule.router(0))
        values = [(to, prefix(to)) for to in network.prefixes]
        inside = [to for to, value in values if outer and value and contains(outer, value)]
        routers = [each for each in network.routers() if network.nodes[each].asn == rule.asn(1)]
        found |= {(router, to) for router in routers for to in inside}
    return found
