"""A quiet network, with what it answers, to compare changes with: only what a change may have moved is asked again."""
from __future__ import annotations

import functools
import hashlib
from typing import Dict, FrozenSet, Iterable, List, Optional, Set, Tuple

from ..convergence.run import Run
from ..network.answers import Answers
from ..network.configuration import Direction, Network
from ..network.probes import probes_of
from ..program.language import address, contains, prefix, show_address, words_of
from ..program.language_table import FORMS
from .comparison import Difference, Packet

EDITS_LINKS = frozenset(form.name for form in FORMS if form.scope == "ases")


def digest(reply: List[str]) -> bytes:
    """A reply in few bytes."""
    return hashlib.sha256("\n".join(reply).encode("latin-1")).digest()


class Baseline(Answers):
    """What a quiet network answers, kept.

    `held` has a digest of what each end of a session holds as received from the other, `told` the replies to `in` for
    what virtual peers told, and `feeds` by which command they did. `passing` has for each address and router the
    routers whose packets pass it."""

    def __init__(self, run: Run) -> None:
        self.network = run.network.copy()
        self._lines = list(run.lines)
        self.replies: Dict[str, List[str]] = {}
        self.passing: Dict[str, Dict[str, Set[str]]] = {}
        self.held: Dict[Direction, bytes] = {}
        self.told: Dict[Direction, List[str]] = {}
        self.routers = self.network.routers()
        self.feeds: Dict[Tuple[Direction, str], str] = {}
        self._learn(run)
        self.known: Dict[FrozenSet[str], List[str]] = {}
        self.follow(run, self.addresses(self.network.prefixes))
        self.is_up = super().sessions_up()

    @property
    def lines(self) -> List[str]:
        return self._lines

    def ask(self, questions: Iterable[str]) -> List[List[str]]:
        return [self.replies[question] for question in questions]

    def sessions_up(self, sessions: Optional[List[Direction]] = None) -> Dict[Direction, bool]:
        return self.is_up if sessions is None else {way: self.is_up[way] for way in sessions}

    def _learn(self, run: Run) -> None:
        network = self.network
        both = [way for one, other in network.sessions() for way in ((one, other), (other, one))]
        questions = ["routes " + router for router in self.routers]
        questions += ["out %s %s" % way for way in both if not network.is_router(way[1])]
        questions += ["cost %s %s" % way for way in both if not network.is_external(*way)]
        self.replies.update(zip(questions, run.ask(questions)))
        for way, reply in zip(both, run.ask("in %s %s" % (b, a) for a, b in both)):
            self.held[way] = digest(reply)
            if not network.is_router(way[0]):
                self.told[way] = reply

        for words in (words_of(line) for line in self._lines if line.startswith("feed")):
            self.feeds[(words[1], words[2]), words[4]] = " ".join(words)

    @property
    def loops(self) -> int:
        """How many packets that were followed go round."""
        return sum(question.startswith("trace ") and reply[-2].startswith("loop ")
                   for question, reply in self.replies.items())

    def addresses(self, prefixes: Set[str]) -> List[str]:
        """The addresses to which packets are followed where these prefixes are there."""
        key = frozenset(prefixes)
        if key not in self.known:
            self.known[key] = list(map(show_address, probes_of(prefixes)))
        return self.known[key]

    def follow(self, run: Run, addresses: Iterable[str]) -> None:
        """Follows packets of all routers to addresses that none was followed to yet; the run is the quiet one."""
        for to in (each for each in addresses if each not in self.passing):
            questions = ["trace %s %s" % (router, to) for router in self.routers]
            passing: Dict[str, Set[str]] = {}
            for router, question, reply in zip(self.routers, questions, run.ask(questions)):
                self.replies[question] = reply
                for passed in [line.split(" ", 1)[0] for line in reply[:-2]] + [reply[-2].split(" ")[1]]:
                    passing.setdefault(passed, set()).add(router)
            self.passing[to] = passing


class Touched:
    """The routers at which a change and the messages that came of it may have moved something."""

    def __init__(self) -> None:
        # At those of `linked` costs may be other ones, at those of `routers` routes.
        self.routers: Set[str] = set()
        self.linked: Set[str] = set()

    def edit(self, network: Network, words: List[str]) -> None:
        """An accepted command."""
        found = network.may_send(words)
        self.routers |= set(network.nodes) if found is None else found
        if words[0] in EDITS_LINKS:
            self.linked |= set(network.nodes) if found is None else found
        if words[0] == "deliver":
            self.routers.add(words[2])

    def deliver(self, ways: Iterable[Direction]) -> None:
        """Messages that were delivered."""
        self.routers.update(way[1] for way in ways)


class After(Answers):
    """The network with the change. A router that was not touched answers as before, and is not asked."""

    def __init__(self, run: Run, quiet: Baseline, touched: Touched) -> None:
        self.run, self.quiet, self.touched = run, quiet, touched
        self.network = run.network

    @property
    def lines(self) -> List[str]:
        return self.run.lines

    def ask(self, questions: Iterable[str]) -> List[List[str]]:
        given = list(questions)
        known = [self._known(question) for question in given]
        asked = iter(self.run.ask(question for question, reply in zip(given, known) if reply is None))
        return [next(asked) if reply is None else reply for reply in known]

    def _known(self, question: str) -> Optional[List[str]]:
        word, router = question.split(" ", 2)[:2]
        if word not in ("routes", "out", "cost") or router in self.touched.routers:
            return None
        return self.quiet.replies.get(question)

    def packets(self, found: Difference) -> List[Packet]:
        """The packets that may go another way: those that passed a router at which a cost or a route for them may have
        changed. A router forwards by its own routes and costs, so any other packet goes as before."""
        return [packet for to in self.quiet.addresses(self.network.prefixes) for packet in self._packets_to(to, found)]

    def _packets_to(self, to: str, found: Difference) -> List[Packet]:
        passing = self.quiet.passing[to]
        moved = {router for router, changes in found.routers.items() if router in passing and any(
            _is_for(change.prefix, to) for change in changes)}
        routers: Set[str] = set().union(*(passing[router] for router in moved | self.touched.linked & passing.keys()))
        return [(router, to) for router in self.quiet.routers if router in routers]


@functools.lru_cache(maxsize=1 << 18)
def _is_for(outer: str, to: str) -> bool:
    """Whether an address is in a prefix."""
    at = address(to)
    found = prefix(outer)
    return at is not None and found is not None and contains(found, (at, 32))
