"""The routes to a prefix that a router can hold, each asked of the program.

A network of the same configuration has all sessions stopped. There a route goes along one path of sessions that are
started, so that each router of the path has that route alone. The program says whether the next router may choose it,
how it stands there after import, and what is advertised of it. By `NoLoopLaw` of the model no route is eligible at a
router that it came through."""
from __future__ import annotations

from dataclasses import dataclass
from typing import Dict, List, NamedTuple, Optional, Tuple

from ..network.configuration import Direction, Network
from ..network.selection import Candidate
from ..program.language import by_address, words_of
from ..program.mistakes import Mistake
from ..program.process import Program
from ..program.replies import Attributes, attributes, best, refusal
from .run import Run

# Commands that bring routes into a network, or move them.
ROUTE_COMMANDS = ("origin", "noorigin", "feed", "deliver")
# So many lines a program is given before another takes its place; it reads at most 1,000,000.
MOST_LINES = 900000


class Root(NamedTuple):
    """A route that begins at a router whatever the others choose: its own, or what a virtual peer feeds it."""
    router: str
    source: str
    fed: Optional[Attributes]


@dataclass(frozen=True)
class Held:
    """A route that a router can hold, and the one of a neighbour that it was made of, by their numbers."""
    router: str
    candidate: Candidate
    before: Optional[int]


def roots_of(run: Run, prefix: str) -> List[Root]:
    """What is originated and fed, where a script was played and nothing was delivered: of a feed, the last message."""
    network, found = run.network, []
    for router in network.routers():
        if prefix in network.origins.get(router, ()):
            found.append(Root(router, "self", None))
    ways = [(virtual, router) for virtual in network.virtuals()
            for router in sorted(network.peers.get(virtual, ()), key=by_address)]
    for (virtual, router), reply in zip(ways, run.ask("queue %s %s" % way for way in ways)):
        messages = [words for words in map(words_of, reply[:-1]) if words[1] == prefix]
        if messages and messages[-1][0] == "update":
            found.append(Root(router, virtual, attributes(" ".join(messages[-1][2:]))))
    return found


def _feed(root: Root, prefix: str) -> str:
    """The command that feeds a route."""
    assert root.fed
    told = root.fed
    words = ["feed", root.source, root.router, "update", prefix, told.path, told.origin, told.med]
    return " ".join(words + (["comm=" + told.comms] if told.comms != "-" else []))


class Prober:
    """The network without routes, where one is sent along paths. It is closed at the end."""

    def __init__(self, run: Run, prefix: str) -> None:
        self.network, self.prefix = run.network, prefix
        sessions = [way for way, is_up in run.sessions_up().items() if is_up]
        kept = [line for line in run.lines if words_of(line)[0] not in ROUTE_COMMANDS and not line.startswith("#")]
        self.lines = kept + ["stop %s %s" % way for way in sessions]
        self.peers: Dict[str, List[str]] = {router: [] for router in run.network.routers()}
        for one, other in sessions:
            for here, there in ((one, other), (other, one)):
                if run.network.is_router(here) and run.network.is_router(there):
                    self.peers[here].append(there)
        self.costs: Dict[Direction, int] = {}
        self.program, self.count = Program(), 0
        self._begin()

    def _begin(self) -> None:
        self.count = len(self.lines)
        if any(map(refusal, ([reply] for reply in self.program.pour(self.lines)))):
            raise Mistake("a line was refused that was accepted in the same place")

    def _pour(self, lines: List[str]) -> List[str]:
        if self.count + len(lines) > MOST_LINES:
            self.program.close()
            self.program = Program()
            self._begin()
        self.count += len(lines)
        return self.program.pour(lines)

    def close(self) -> None:
        """Ends the program."""
        self.program.close()

    def __enter__(self) -> "Prober":
        return self

    def __exit__(self, *_: object) -> None:
        self.close()

    def _root_lines(self, root: Root) -> Tuple[List[str], List[str]]:
        """What brings a route to its first router, and what takes it away."""
        if root.fed is None:
            return (["origin %s %s" % (root.router, self.prefix)], ["noorigin %s %s" % (root.router, self.prefix)])
        way = (root.source, root.router)
        return ["start %s %s" % way, _feed(root, self.prefix), "deliver %s %s" % way], ["stop %s %s" % way]

    def first(self, root: Root) -> Optional[Candidate]:
        """The route of a root as it stands at its router; nothing where it is excluded there."""
        there, away = self._root_lines(root)
        asked = "best %s %s" % (root.router, self.prefix)
        reply = self._pour(there + [asked] + away)[len(there)]
        return self._candidate(root.router, reply)

    def next(self, root: Root, routers: List[str]) -> Dict[str, Candidate]:
        """What becomes of a route at the peers of the last of these routers, which it went through: at each that may
        choose it."""
        there, away = self._root_lines(root)
        for way in zip(routers, routers[1:]):
            there += ["start %s %s" % way, "deliver %s %s" % way]
            away = ["stop %s %s" % way] + away
        peers = [peer for peer in self.peers[routers[-1]] if peer not in routers]
        asked: List[str] = []
        for peer in peers:
            way = (routers[-1], peer)
            asked += ["start %s %s" % way, "deliver %s %s" % way]
            asked += ["best %s %s" % (peer, self.prefix), "stop %s %s" % way]
        replies = self._pour(there + asked + away)[len(there):len(there) + len(asked)]
        found = ((peer, self._candidate(peer, reply)) for peer, reply in zip(peers, replies[2::4]))
        return {peer: candidate for peer, candidate in found if candidate}

    def _candidate(self, router: str, reply: str) -> Optional[Candidate]:
        """The route that is the only one of a router, by its reply to `best`."""
        route = best([reply])
        if route is None:
            return None
        source, told = str(route.source), route.attributes
        if source == "self":
            return Candidate(source, told, True, 0, router, router)
        is_external = self.network.is_external(router, source)
        ident = source if told.oid == "-" else told.oid
        return Candidate(source, told, is_external, self._cost(router, told.next), ident, source)

    def _cost(self, router: str, hop: str) -> int:
        if (router, hop) not in self.costs:
            self.costs[router, hop] = int(self._pour(["cost %s %s" % (router, hop)])[0].split(" ")[0])
        return self.costs[router, hop]


def preference_bound(network: Network, router: str, peer: str) -> int:
    """The highest preference that a route can have which comes by a session."""
    if not network.is_external(router, peer):
        asn = network.nodes[router].asn
        ways = [(one, other) for one in network.routers() if network.nodes[one].asn == asn
                for other in network.peers.get(one, ()) if network.is_external(one, other)]
        return max([100] + [preference_bound(network, *way) for way in ways])
    rules = [rule.split(" ") for rule in network.rules.get((router, peer, "in"), [])]
    found = [int(word[len("pref="):]) for words in rules for word in words if word.startswith("pref=")]
    return max(found + ([] if any(_is_plain(words) for words in rules) else [100]), default=0)


def _is_plain(words: List[str]) -> bool:
    """Whether no route gets past a rule with the preference of 100."""
    return words[0] == "any" and (words[1] == "deny" or any(word.startswith("pref=") for word in words))
