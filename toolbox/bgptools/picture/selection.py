"""Which routers a picture shows: all, some ASes, what is near one router, or ASes in place of too many routers."""
from __future__ import annotations

from dataclasses import dataclass
from typing import List, Optional, Set

from ..network.configuration import Network, ends
from ..network.graph_search import hops, neighbours
from ..program.language import address, number, prefix
from ..program.mistakes import Mistake
from .observation import View
from .scene import readable

MOST = 60


@dataclass
class Choice:
    """What the command line asks to be shown."""
    prefix: Optional[str] = None
    trace: Optional[List[str]] = None
    has_sessions: bool = True
    only: Optional[str] = None
    of: Optional[str] = None
    hops: int = 1
    is_whole: bool = False

    def view(self, network: Network) -> View:
        """The same in a network: names are looked up, and what is not there is a mistake."""
        way = self._way(network)
        shown = self._shown(network)
        if self.prefix is not None and prefix(self.prefix) is None:
            raise Mistake("--prefix %s: a prefix with no bit set behind its length is expected, as 10.0.0.0/8"
                          % self.prefix)
        count = len(network.nodes if shown is None else shown)
        is_of_ases = count > MOST and not self.is_whole
        view = View(self.prefix, (way[0], way[1]) if way else None, self.has_sessions, shown, is_of_ases)
        if shown is not None:
            view.notes.append("%s: %d of %d routers and peers" % (self._told(network), count, len(network.nodes)))
        if view.is_of_ases:
            view.notes.append("%d routers and peers, drawn as ASes" % count)
        return view

    def _way(self, network: Network) -> Optional[List[str]]:
        if self.trace is None:
            return None
        way = [network.names.address_of(word) for word in self.trace]
        if address(way[1]) is None:
            raise Mistake("--trace %s %s: an address is expected, as 198.51.100.1" % tuple(self.trace))
        if not network.is_router(way[0]):
            raise Mistake("--trace %s %s: there is no router %s in the script" % (*self.trace, self.trace[0]))
        return way

    def _shown(self, network: Network) -> Optional[Set[str]]:
        if self.only is None and self.of is None:
            return None
        found = set(network.nodes)
        if self.only is not None:
            ases = self._ases(network, self.only)
            found = {a for a in found if network.nodes[a].asn in ases}
        return found if self.of is None else found & self._near(network, self.of)

    @staticmethod
    def _ases(network: Network, only: str) -> Set[int]:
        """The AS numbers of `--only`."""
        there, found = {node.asn for node in network.nodes.values()}, set()
        for word in only.split(","):
            asn = number(word, 1)
            if asn is None or asn not in there:
                wrong = "AS numbers joined by commas are expected"
                raise Mistake("--only %s: %s" % (only, wrong if asn is None else "there is no AS %d in the script" % asn))
            found.add(asn)
        return found

    def _near(self, network: Network, of: str) -> Set[str]:
        """Who is within so many links of a router."""
        start = network.names.address_of(of)
        if start not in network.nodes:
            raise Mistake("--of %s: there is no router %s in the script" % (of, of))
        near = neighbours((one, other) for one, other in map(ends, network.links))
        return {a for a, count in hops(near, start).items() if count <= self.hops}

    def _told(self, network: Network) -> str:
        parts = ["AS " + self.only.replace(",", ", ")] if self.only is not None else []
        if self.of is not None:
            start = readable(network.names.shown(network.names.address_of(self.of)))
            parts.append("within %d %s of %s" % (self.hops, "link" if self.hops == 1 else "links", start))
        return ", ".join(parts)
