"""Writes a random script of changes of the IGP: a network of several ASes with sessions, policies that set MED and add
communities, and routes, some of them fed with MEDs, then links that fail, are mended, get another metric or are added,
and routers that compare MED otherwise, with questions for costs and choices after each.

    tools/random-igp SEED [CHANGES]        the same seed and number of changes (100) give the same script

Metrics are few and small, so that shortest paths tie; parts of the network are cut off and come back. tools/agree --igp
compares the machines on many.
"""
from __future__ import annotations

import random
import sys
from typing import Dict, Iterable, List, Sequence, Tuple

from . import commands
from .language import WELL_KNOWN
from .networks import virtual_peer

# What policies of external sessions add: a community that means nothing by itself more often than one that keeps a
# route from being advertised.
ADDED = ("5", "7", "4294967295") * 3 + WELL_KNOWN
# Virtual peers, by their ASes; their links never fail, since what they advertised would be gone.
PEERS = {"11.0.0.1": 11, "11.0.0.2": 11, "12.0.0.1": 12, "12.0.0.2": 12}


def is_internal(one: str, other: str) -> bool:
    return one.split(".")[0] == other.split(".")[0]


class Network:
    """The lines so far, and the links that they make."""

    def __init__(self, seed: int):
        self.random = random.Random(seed)
        self.lines: List[str] = []
        ases = self.random.randint(1, 3)
        self.inside = [["%d.0.0.%d" % (asn, n) for n in range(1, self.random.randint(4, 9))]
                       for asn in range(1, ases + 1)]
        self.routers = [router for routers in self.inside for router in routers]
        self.links: Dict[Tuple[str, ...], bool] = {}      # ends: up
        self.borders: List[Tuple[str, ...]] = []      # the links of virtual peers
        self.sessions: List[Tuple[str, str]] = []

    def metric(self) -> int:
        return self.random.choice([1, 1, 2, 2, 3, 4, 65535])

    def add_link(self, one: str, other: str) -> None:
        ends = tuple(sorted((one, other)))
        if one != other and ends not in self.links:
            self.links[ends] = True
            self.lines.append("link %s %s %d" % (one, other, self.metric()))

    def build(self) -> None:
        """Each AS is a row with some links more; ASes are linked here and there; routers of an AS have sessions with
        its first one."""
        for asn, routers in enumerate(self.inside, 1):
            self.lines += ["router %s %d" % (router, asn) for router in routers]
        for routers in self.inside:
            self.add_links(zip(routers, routers[1:]))
            self.add_links(self.random.sample(routers, 2) for _ in range(len(routers) // 2))
        self.add_links([self.random.choice(routers) for routers in self.random.sample(self.inside, 2)]
                       for _ in range(2 * (len(self.inside) - 1)))
        self.join()

    def add_links(self, pairs: Iterable[Sequence[str]]) -> None:
        for one, other in pairs:
            self.add_link(one, other)

    def join(self) -> None:
        pairs = [(routers[0], router) for routers in self.inside for router in routers[1:]]
        pairs += [ends for ends in self.links if not is_internal(*ends)]
        self.sessions += [(one, other) for one, other in pairs]
        self.lines += ["join %s %s" % pair for pair in self.sessions]
        for routers in self.inside:
            self.lines += ["client %s %s on" % (routers[0], router) for router in routers[1:]]
        self.lines += [self.policy(*ends) for ends in self.sessions if not is_internal(*ends) for _ in range(2)]
        for n, router in enumerate(self.random.sample(self.routers, 3)):
            self.lines.append("origin %s 10.%d.0.0/16" % (router, n % 2))
        self.feed()
        self.deliver(4)

    def feed(self) -> None:
        """Each virtual peer tells a router of the first AS, or of any, two prefixes with MEDs."""
        for peer, asn in PEERS.items():
            router = self.random.choice(self.random.choice([self.inside[0], self.routers]))
            self.borders.append((router, peer))
            self.sessions.append((router, peer))
            self.lines += virtual_peer(router, peer, asn, self.metric())
            told = [(peer, router, n, asn, self.random.randint(0, 2)) for n in (0, 2)]
            self.lines += ["feed %s %s update 10.%d.0.0/16 %d igp %d" % one for one in told]

    def policy(self, *ends: str) -> str:
        """A rule of one of the ends, which adds a community, and may set MED."""
        one, other = self.random.sample(ends, 2)
        way, match = self.random.choice(["in", "out"]), self.random.choice(["any", "comm 5", "is 10.1.0.0/16"])
        med = self.random.choice(["", " med=0", " med=1"])
        return "rule %s %s %s %s permit%s add=%s" % (one, other, way, match, med, self.random.choice(ADDED))

    def deliver(self, rounds: int) -> None:
        for one, other in self.sessions * rounds:
            self.lines += ["deliver %s %s" % (one, other), "deliver %s %s" % (other, one)]

    def change(self) -> None:
        kind = self.random.choice(["fail", "fail", "mend", "metric", "metric", "link", "med"])
        if kind == "med":
            self.lines.append("med %s %s" % (self.random.choice(self.routers), self.random.choice(["as", "always"])))
            return
        if kind == "link":
            self.add_link(*self.random.sample(self.random.choice(self.inside), 2))
            return
        turned = [ends for ends, is_up in self.links.items() if is_up == (kind == "fail")]
        known = [*self.links, *self.borders] if kind == "metric" else turned
        if not known:
            return
        ends = self.random.choice(known)
        one, other = self.random.sample(ends, 2)
        if kind != "metric":
            self.links[ends] = kind == "mend"
        self.lines.append("%s %s %s%s" % (kind, one, other, " %d" % self.metric() if kind == "metric" else ""))

    def ask(self) -> None:
        for _ in range(3):
            self.lines.append("cost %s %s" % (self.random.choice(self.routers), self.random.choice(self.routers)))
        one, other = self.random.choice(self.sessions)
        where = self.random.choice(self.routers)
        self.lines += ["routes %s" % one, "why %s 10.%d.0.0/16" % (where, self.random.choice([0, 2])),
                       "queue %s %s" % (one, other), "trace %s 10.1.0.1" % self.random.choice(self.routers)]


def script(seed: int, changes: int = 100) -> str:
    """The script of a seed: a network, and so many changes."""
    network = Network(seed)
    network.build()
    for n in range(changes):
        network.change()
        network.ask()
        if n % 10 == 9:
            network.deliver(1)
    for router in network.routers:
        network.lines += ["routes %s" % router] + ["cost %s %s" % (router, other) for other in network.routers]
    return "".join(line + "\n" for line in network.lines)


def main(words: Sequence[str]) -> int:
    """The command."""
    asked = commands.parser(__doc__)
    asked.add_argument("seed", type=int, metavar="SEED")
    asked.add_argument("changes", type=commands.number, nargs="?", default=100, metavar="CHANGES")
    given = asked.parse_args(words)
    sys.stdout.write(script(given.seed, given.changes))
    return 0
