"""Writes the script of a load to standard output, for measuring: the same for the same words. bench/loads measures
it.

    tools/loads table N        a router hears N prefixes from each of four external peers, and passes the best on
    tools/loads reflector N    a route reflector with N clients, each of which originates 20 prefixes
    tools/loads ring N         a ring of N routers of one AS with one reflector and 20 prefixes heard at two borders;
                               50 metric changes
    tools/loads net N          20 routers in four ASes, 40 sessions, N prefixes; changes and questions
    tools/loads tagged N       the router of table, and each route has eight communities; it prefers the routes of half
                               of the prefixes by one of these, and adds another one to the rest

After each change everything is delivered until all queues are empty. Prefixes do not meddle with each other, so
tools/model.py plays each kind of prefix once, and its deliveries are written as often as there are prefixes of the
kind.
"""
from __future__ import annotations

from typing import Any, Callable, Dict, Iterable, List, Sequence, Tuple

import model

from . import commands
from .networks import prefix, virtual_peer


class Load:
    """A script in which so many prefixes of each kind are advertised, and a network for each kind."""

    def __init__(self, sizes: List[int]):
        self.sizes = sizes
        self.nets = [model.Net() for _ in sizes]
        self.lines: List[str] = []

    def do(self, *lines: str) -> None:
        """Commands that speak of no prefix."""
        for line in lines:
            if any(model.answer(net, line) != ["ok"] for net in self.nets):
                raise ValueError(line)
            self.lines.append(line)

    def tell(self, kind: int, line: str) -> None:
        """A command for each prefix of the kind, whose place in it is %s."""
        first = sum(self.sizes[:kind])
        model.answer(self.nets[kind], line % prefix(first))
        self.lines += [line % prefix(n) for n in range(first, first + self.sizes[kind])]

    def settle(self) -> None:
        """Deliveries, direction by direction, until all queues are empty."""
        while waiting := {ends for net in self.nets for ends, messages in net.queues.items() if messages}:
            self.deliver_all(sorted(waiting))

    def deliver_all(self, ways: Iterable[Tuple[int, int]]) -> None:
        for ends in ways:
            line = "deliver %s %s" % tuple(map(model.show, ends))
            self.lines += [line] * sum(delivered(net, ends, line) * size for net, size in zip(self.nets, self.sizes))


def delivered(net: Any, ends: Tuple[int, int], line: str) -> int:
    """Delivers what waits in a direction; how many messages."""
    waiting = len(net.queues.get(ends, []))
    for _ in range(waiting):
        model.answer(net, line)
    return waiting


def community(asn: int, number: int) -> int:
    """A community that an AS defines (RFC 1997): the AS in its upper half."""
    return asn << 16 | number


def table(count: int) -> Load:
    load = Load([count])
    load.do("router 9.0.0.1 9")
    for peer in range(1, 5):
        load.do(*virtual_peer("9.0.0.1", "%d.0.0.1" % peer, peer, 10 - peer))
    for peer in range(1, 5):
        load.tell(0, "feed %d.0.0.1 9.0.0.1 update %%s %d,100 igp -" % (peer, peer))
        load.settle()
    return load


def tagged(count: int) -> Load:
    load = Load([count // 2, count - count // 2])
    load.do("router 9.0.0.1 9")
    for peer in range(1, 5):
        load.do(*virtual_peer("9.0.0.1", "%d.0.0.1" % peer, peer, 10 - peer))
        load.do("rule 9.0.0.1 %d.0.0.1 in comm %d permit pref=110" % (peer, community(100, 8)),
                "rule 9.0.0.1 %d.0.0.1 in any permit add=%d" % (peer, community(9, peer)))
    for peer in range(1, 5):
        for kind, asn in enumerate((100, 101)):
            told = ",".join(str(community(asn, n)) for n in range(1, 9))
            load.tell(kind, "feed %d.0.0.1 9.0.0.1 update %%s %d,100 igp - comm=%s" % (peer, peer, told))
        load.settle()
    return load


def reflector(count: int) -> Load:
    load = Load([20] * count)
    load.do("router 5.0.0.1 5")
    clients = ["5.1.%d.%d" % (n // 250, n % 250 + 1) for n in range(count)]
    for client in clients:
        load.do("router %s 5" % client, "link 5.0.0.1 %s 1" % client, "join 5.0.0.1 %s" % client)
        load.do("client 5.0.0.1 %s on" % client)
    for kind, client in enumerate(clients):
        load.tell(kind, "origin %s %%s" % client)
        load.settle()
    return load


def ring(count: int) -> Load:
    load = Load([20])
    routers = ["5.0.%d.%d" % (n // 250, n % 250 + 1) for n in range(count)]
    ends = list(zip(routers, routers[1:] + routers[:1]))
    load.do(*("router %s 5" % router for router in routers))
    load.do(*("link %s %s 10" % pair for pair in ends))
    for router in routers[1:]:
        load.do("join %s %s" % (routers[0], router), "client %s %s on" % (routers[0], router))
    for asn, border in ((7, routers[count // 3]), (8, routers[2 * count // 3])):
        load.do(*virtual_peer(border, "%d.0.0.1" % asn, asn, 1))
        load.tell(0, "feed %d.0.0.1 %s update %%s %d igp -" % (asn, border, asn))
        load.settle()
    for n in range(50):
        load.do("metric %s %s %d" % (*ends[n * 7 % count], 10 if n % 3 == 2 else 1 + n * 13 % 40))
        load.settle()
    return load


def igp(load: Load, asn: int, inside: List[str]) -> None:
    """Five routers in a ring, with two reflectors."""
    load.do(*("router %s %d" % (router, asn) for router in inside))
    load.do(*("link %s %s %d" % (inside[n], inside[(n + 1) % 5], n + 2) for n in range(5)))
    load.do(*("join %s %s" % (inside[0], client) for client in inside[1:]))
    for client in inside[2:]:
        load.do("join %s %s" % (inside[1], client))
        load.do(*("client %s %s on" % (reflector, client) for reflector in inside[:2]))


def changed(load: Load, n: int, routers: List[List[str]], borders: List[Tuple[str, str]]) -> None:
    """A link of two borders fails or is mended, a metric changes, and questions."""
    one, other = borders[n - n % 2]
    load.do("%s %s %s" % ("mend" if n % 2 else "fail", one, other))
    load.settle()
    load.do("metric %s %s %d" % (routers[n % 4][n % 5], routers[n % 4][(n + 1) % 5], 3 * n + 1))
    load.settle()
    load.lines += ["routes " + one, "why %s %s" % (other, prefix(n)), "trace %s 20.0.%d.1" % (one, n),
                   "out %s %s" % (one, other), "in %s %s" % (one, other),
                   "cost %s %s" % (routers[n % 4][0], routers[n % 4][3]), "quiet"]


def net(count: int) -> Load:
    load = Load([count // 5 + (kind < count % 5) for kind in range(5)])
    routers = [["%d.0.0.%d" % (asn, n) for n in range(1, 6)] for asn in range(1, 5)]
    for asn, inside in enumerate(routers, 1):
        igp(load, asn, inside)
    borders = [(routers[a][2 + (a + b + twice) % 3], routers[b][2 + (b + twice) % 3])
               for a in range(4) for b in range(a) for twice in (0, 1)]
    for one, other in borders:
        load.do("link %s %s 5" % (one, other), "join %s %s" % (one, other))
    for kind in range(5):
        load.tell(kind, "origin %s %%s" % routers[kind % 4][kind])
        load.settle()
    for n in range(4):
        changed(load, n, routers, borders)
    return load


LOADS: Dict[str, Callable[[int], Load]] = {
    "table": table, "reflector": reflector, "ring": ring, "net": net, "tagged": tagged}


def lines(kind: str, count: int) -> List[str]:
    """The lines of a load."""
    return LOADS[kind](count).lines


def main(words: Sequence[str]) -> int:
    """The command."""
    asked = commands.parser(__doc__)
    asked.add_argument("kind", choices=sorted(LOADS))
    asked.add_argument("count", type=commands.number, metavar="N")
    given = asked.parse_args(words)
    print("\n".join(lines(given.kind, given.count)))
    return 0
