"""Writes a random network as a script in which it converges, changes, and converges again, for tools/real-routers.

    tools/converging-networks SEED        the same seed gives the same script

Some ASes of some routers each, with a full mesh of sessions or one or two reflectors; in some of them all routers
compare MED whatever the neighbouring AS; virtual peers; policies on external sessions; communities; then failures,
repairs, metrics, sessions stopped and prefixes withdrawn, with deliveries between them.
"""
from __future__ import annotations

import random
from typing import Dict, Iterable, List, Sequence, Tuple, TypeVar

import model

from . import commands
from .language import WELL_KNOWN

PREFIXES = ["10.%d.0.0/16" % n for n in range(1, 7)]
# Tags, and those that keep a route from being advertised.
COMMUNITIES = ("1", "65001", "4259840100") * 4 + WELL_KNOWN
One = TypeVar("One")


class Script:
    """The lines so far, and the network that the model makes of them."""

    def __init__(self, seed: int):
        self.random = random.Random(seed)
        self.prefers = seed % 4 == 0      # whether policies set LOCAL_PREF
        self.net = model.Net()
        self.lines: List[str] = []
        self.routers: Dict[int, List[str]] = {}
        self.peers: List[Tuple[str, str, int]] = []
        self.externals: List[Tuple[str, str]] = []

    def some(self, among: Iterable[One]) -> One:
        return self.random.choice(list(among))

    def chance(self, share: float) -> bool:
        return self.random.random() < share

    def say(self, line: str) -> bool:
        """Writes the line unless it would be refused."""
        replies = model.answer(self.net, line)
        if replies[0].startswith("refused"):
            return False
        self.lines.append(line)
        return True

    def say_all(self, lines: Iterable[str]) -> None:
        for line in lines:
            self.say(line)

    def deliver(self, most: int) -> None:
        """At most so many deliveries, in a random order of directions."""
        for _ in range(most):
            waiting = sorted(ends for ends, messages in self.net.queues.items() if messages)
            if not waiting:
                return
            self.say("deliver %s %s" % tuple(map(model.show, self.some(waiting))))

    # building

    def add_as(self, asn: int) -> None:
        inside = self.routers[asn] = ["%d.0.0.%d" % (asn, n + 1) for n in range(self.random.randint(2, 4))]
        self.say_all("router %s %d" % (router, asn) for router in inside)
        for n in range(1, len(inside)):
            self.say("link %s %s %d" % (inside[n], inside[self.random.randrange(n)], self.random.randint(1, 9)))
        self.say_all("link %s %s %d" % (*self.random.sample(inside, 2), self.random.randint(1, 9))
                     for _ in range(self.random.randint(0, 2)))
        self.say_all("med %s always" % router for router in (inside if self.chance(0.3) else []))
        tops = inside[:self.random.randint(1, 2)] if len(inside) > 2 and self.chance(0.6) else inside
        self.ibgp_sessions(inside, tops)

    def ibgp_sessions(self, inside: List[str], tops: List[str]) -> None:
        """A full mesh where all are tops; else the tops are reflectors of the others."""
        for top, other in ((top, other) for top in tops for other in inside):
            self.say("join %s %s" % (top, other))
            if other not in tops:
                self.say("client %s %s on" % (top, other))
        if len(tops) == 2 and self.chance(0.5):
            self.say_all("cluster %s 77.7.7.7" % top for top in tops)
        pairs = [(one, other) for one in inside for other in inside if one != other]
        self.say_all("self %s %s on" % pair for pair in pairs if self.chance(0.25))

    def border(self, one: str, other: str) -> None:
        if self.say("link %s %s %d" % (one, other, self.random.randint(1, 9))):
            self.say("join %s %s" % (one, other))
            self.externals.append((one, other))

    def borders(self, asn: int, other: int) -> None:
        """Some links between two ASes."""
        for _ in range(self.random.randint(1, 3)):
            self.border(self.some(self.routers[asn]), self.some(self.routers[other]))

    def peer(self, number: int) -> None:
        asn = self.random.randint(20, 22)
        peer = "%d.0.0.%d" % (asn, number)
        self.say("virtual %s %d" % (peer, asn))
        for router in self.random.sample(sorted(sum(self.routers.values(), [])), self.random.randint(1, 2)):
            self.border(router, peer)
            self.peers.append((peer, router, asn))

    def policy(self, router: str, peer: str) -> str:
        asn = self.some(sorted(self.routers) + [20, 21, 22])
        one, under = "is " + self.some(PREFIXES), "under 10.0.0.0/%d" % self.some([8, 13])
        match = self.some(["any", one, under, "path %d" % asn, "first %d" % asn, "comm " + self.some(COMMUNITIES)])
        settings = " med=%d" % self.random.randint(0, 3) if self.chance(0.5) else ""
        adds = " add=" + self.some(COMMUNITIES) if self.chance(0.3) else ""
        if self.chance(0.5):
            prefers = " pref=%d" % self.some([90, 110]) if self.prefers and self.chance(0.5) else ""
            action = self.some(["deny", "permit" + prefers + settings + adds])
            return "rule %s %s in %s %s" % (router, peer, match, action)
        prepends = " prepend=%d" % self.random.randint(1, 3) if self.chance(0.5) else ""
        action = self.some(["deny", "permit" + settings + prepends + adds])
        return "rule %s %s out %s %s" % (router, peer, match, action)

    def feed(self, peer: str, router: str, asn: int) -> None:
        own = [self.some(self.routers)] if self.chance(0.1) else []
        passed = [self.random.randint(30, 32) for _ in range(self.some([0, 0, 1, 1, 2]))]
        path = ",".join(map(str, [asn] + passed + own))
        if self.chance(0.15):
            path += "_{%d,%d}" % tuple(sorted(self.random.sample(range(40, 50), 2)))
        prefix, origin, med = self.some(PREFIXES), self.some(["igp", "igp", "egp", "inc"]), self.some("-0125")
        chosen = {self.some(COMMUNITIES) for _ in range(self.some([0, 0, 1, 1, 2, 3]))}
        comms = " comm=" + ",".join(sorted(chosen, key=int)) if chosen else ""
        self.say("feed %s %s update %s %s %s %s" % (peer, router, prefix, path, origin, med) + comms)

    def build(self) -> None:
        asns = self.random.sample(range(1, 9), self.some([1, 2, 2, 3]))
        for asn in asns:
            self.add_as(asn)
        for asn, other in ((asn, other) for n, asn in enumerate(asns) for other in asns[:n]):
            self.borders(asn, other)
        for number in range(1, self.random.randint(3, 5)):
            self.peer(number)
        ways = [way for one, other in self.externals for way in ((one, other), (other, one))]
        self.say_all(self.policy(*way) for way in ways for _ in range(self.some([0, 0, 0, 1, 2])))
        routers = sum(self.routers.values(), [])
        self.say_all("origin %s %s" % (self.some(routers), self.some(PREFIXES)) for _ in range(2))
        for _ in range(4 * len(self.peers)):
            self.feed(*self.some(self.peers))

    # changes

    def change(self) -> None:
        net, show = self.net, model.show
        link = "%s %s" % tuple(map(show, sorted(self.some(sorted(net.links, key=sorted)))))
        session = "%s %s" % tuple(map(show, sorted(self.some(sorted(net.sessions, key=sorted)))))
        owner, prefix = self.some(sorted(net.origins) or [(0, (0, 0))])
        router, peer = self.some(self.externals)
        self.say(self.some([
            "fail " + link, "fail " + link, "mend " + link, "metric %s %d" % (link, self.random.randint(1, 9)),
            "stop " + session, "start " + session, "noorigin %s %s" % (show(owner), model.show_prefix(prefix)),
            "clear %s %s in" % (router, peer), "clear %s %s out" % (router, peer), self.policy(router, peer)]))
        if self.chance(0.5):
            peer, router, _ = self.some(self.peers)
            self.say("feed %s %s withdraw %s" % (peer, router, self.some(PREFIXES)))
        self.feed(*self.some(self.peers))


def script(seed: int) -> str:
    """The script of a seed."""
    made = Script(seed)
    made.build()
    made.deliver(made.random.choice([0, 50, 2000]))
    for _ in range(made.random.randint(0, 8)):
        made.change()
        made.deliver(made.random.choice([0, 5, 50]))
    made.deliver(5000)
    return "".join(line + "\n" for line in made.lines)


def main(words: Sequence[str]) -> int:
    """The command."""
    asked = commands.parser(__doc__)
    asked.add_argument("seed", type=int, metavar="SEED")
    print(script(asked.parse_args(words).seed), end="")
    return 0
