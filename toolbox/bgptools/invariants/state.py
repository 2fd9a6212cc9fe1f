"""What a converged network answers: routes of routers, what peers hold, the ways of packets. Each is asked once."""
from __future__ import annotations

from functools import cached_property
from typing import Dict, Iterable, List, Tuple

from ..network.answers import Answers
from ..network.configuration import Direction
from ..network.probes import probes_by_prefix
from ..program.language import show_address
from ..program.output import Progress
from ..program.replies import Route, Trace, routes, trace

# So many questions are asked at once, between which it is told how far they are.
ROUND = 500
# A packet, by the router that it starts at and the address that it is for.
Packet = Tuple[str, str]


class State:
    """A network whose queues are empty; addresses stand for routers."""

    def __init__(self, answers: Answers) -> None:
        self.answers, self.network = answers, answers.network
        self._held: Dict[Direction, Dict[str, Route]] = {}
        self._ways: Dict[Packet, Trace] = {}

    @cached_property
    def routes(self) -> Dict[str, Dict[str, Route]]:
        """The chosen routes of each router, by prefix."""
        routers = self.network.routers()
        return dict(zip(routers, map(routes, self.answers.ask("routes " + router for router in routers))))

    @cached_property
    def probes(self) -> Dict[str, str]:
        """An address of each prefix to which packets are followed."""
        return {to: show_address(at) for to, at in probes_by_prefix(self.network.prefixes).items()}

    def probe(self, to: str) -> str:
        """An address of a prefix, which need not be one of the network's."""
        return self.probes.get(to) or show_address(probes_by_prefix([*self.network.prefixes, to])[to])

    @cached_property
    def up(self) -> Dict[Direction, bool]:
        """Which sessions are up, each once."""
        return self.answers.sessions_up()

    def held(self, ways: Iterable[Direction]) -> Dict[Direction, Dict[str, Route]]:
        """For each direction what the second one holds as received from the first, by prefix."""
        asked = [way for way in dict.fromkeys(ways) if way not in self._held]
        replies = self.answers.ask("in %s %s" % (receiver, sender) for sender, receiver in asked)
        self._held.update(zip(asked, map(routes, replies)))
        return self._held

    def received(self, router: str, peer: str) -> Dict[str, Route]:
        """What a router or virtual peer holds as received from a peer, by prefix."""
        return self.held([(peer, router)])[peer, router]

    def follow(self, packets: List[Packet]) -> Dict[Packet, Trace]:
        """The ways of these packets, and of those that were followed earlier."""
        progress, asked = Progress(), [each for each in dict.fromkeys(packets) if each not in self._ways]
        for start in range(0, len(asked), ROUND):
            part = asked[start:start + ROUND]
            self._ways.update(zip(part, map(trace, self.answers.ask("trace %s %s" % each for each in part))))
            progress.tell("%d of %d packets followed .." % (start, len(asked)))
        progress.done()
        return self._ways

    def way(self, router: str, to: str) -> Trace:
        """The way of a packet from a router to an address."""
        return self.follow([(router, to)])[router, to]
