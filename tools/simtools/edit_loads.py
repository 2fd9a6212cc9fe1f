"""Writes the script of a load of edits to standard output, for measuring: the same for the same words. bench/edits
measures it.

    tools/edit-loads mesh N       N routers of one AS and four links for each, then 200 sessions of the first router
    tools/edit-loads origins N    a router with four external sessions originates N prefixes
    tools/edit-loads heard N      the same router hears N prefixes from one of its peers
    tools/edit-loads calm N       a ring of N routers of one AS, each with a session; 100 changes of a metric that no
                                  shortest path uses
    tools/edit-loads moved N      the same ring; 100 changes of a metric that moves the costs of nearly all
    tools/edit-loads rules N      a router that passes N prefixes on; 20 times a rule for what it hears, and none again
"""
from __future__ import annotations

from typing import Callable, Dict, Iterator, List, Sequence

from . import commands, networks
from .networks import prefix, router, virtual_peer


def mesh(count: int) -> Iterator[str]:
    yield from networks.mesh(count)
    yield from ("join %s %s" % (router(0), router(n * count // 201)) for n in range(1, 201))


def four_peers() -> Iterator[str]:
    yield "router 9.0.0.1 9"
    for peer in range(1, 5):
        yield from virtual_peer("9.0.0.1", "%d.0.0.1" % peer, peer, peer)


def origins(count: int) -> Iterator[str]:
    yield from four_peers()
    yield from ("origin 9.0.0.1 %s" % prefix(n) for n in range(count))


def heard(count: int) -> Iterator[str]:
    yield from four_peers()
    for n in range(count):
        yield "feed 1.0.0.1 9.0.0.1 update %s 1 igp -" % prefix(n)
        yield "deliver 1.0.0.1 9.0.0.1"


def ring(count: int) -> Iterator[str]:
    """Each router has a session with the next one."""
    yield from ("router %s 5" % router(n) for n in range(count))
    for n in range(count):
        yield "link %s %s 10" % (router(n), router((n + 1) % count))
    for n in range(count):
        yield "join %s %s" % (router(n), router((n + 1) % count))


def calm(count: int) -> Iterator[str]:
    """The link goes past two others of half its metric."""
    yield from ring(count)
    yield "link %s %s 40000" % (router(0), router(2))
    yield from ("metric %s %s %d" % (router(0), router(2), 40001 + n) for n in range(100))


def moved(count: int) -> Iterator[str]:
    yield from ring(count)
    yield from ("metric %s %s %d" % (router(0), router(1), 1 + n % 2 * 9) for n in range(100))


def rules(count: int) -> Iterator[str]:
    yield "router 9.0.0.1 9"
    for peer in (7, 8):
        yield from virtual_peer("9.0.0.1", "%d.0.0.1" % peer, peer, 1)
    for n in range(count):
        yield "feed 7.0.0.1 9.0.0.1 update %s 7 igp -" % prefix(n)
        yield "deliver 7.0.0.1 9.0.0.1"
    for n in range(20):
        yield "rule 9.0.0.1 7.0.0.1 in first 7 permit pref=%d" % (200 + n)
        yield "clear 9.0.0.1 7.0.0.1 in"


LOADS: Dict[str, Callable[[int], Iterator[str]]] = {
    "mesh": mesh, "origins": origins, "heard": heard, "calm": calm, "moved": moved, "rules": rules}


def lines(kind: str, count: int) -> List[str]:
    """The lines of a load."""
    return list(LOADS[kind](count))


def main(words: Sequence[str]) -> int:
    """The command."""
    asked = commands.parser(__doc__)
    asked.add_argument("kind", choices=sorted(LOADS))
    asked.add_argument("count", type=commands.number, metavar="N")
    given = asked.parse_args(words)
    print("\n".join(lines(given.kind, given.count)))
    return 0
