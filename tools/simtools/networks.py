"""Parts of the networks that loads are made of, as lines of a script."""
from __future__ import annotations

from typing import Iterator, List


def prefix(n: int) -> str:
    """The prefix of a number."""
    return "%d.%d.%d.0/24" % (20 + (n >> 16), n >> 8 & 255, n & 255)


def router(n: int) -> str:
    """The address of a router of AS 5."""
    return "5.0.%d.%d" % (n >> 8, n & 255)


def mesh(count: int) -> Iterator[str]:
    """Routers of one AS, and of each a link to four further on; the steps are prime, so no pair is linked twice."""
    yield from ("router %s 5" % router(n) for n in range(count))
    for step in (1, 7, 61, 509):
        yield from ("link %s %s %d" % (router(n), router((n + step) % count), 1 + n * step % 97) for n in range(count))


def virtual_peer(at: str, peer: str, asn: int, metric: int) -> List[str]:
    """A virtual peer that is linked and joined to a router."""
    return ["virtual %s %d" % (peer, asn), "link %s %s %d" % (at, peer, metric), "join %s %s" % (at, peer)]
