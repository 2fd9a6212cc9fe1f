"""Where messages may wait, and at most how many: known from the commands that were accepted and from the routes that routers chose.

A router sends where it was edited, or took a message and chose another route for it, and may tell that to somebody. This is a hint, for fewer
questions: at the end the program is asked whether all queues are empty."""
from __future__ import annotations

import math
from typing import Dict, Iterable, List, Optional, Tuple

from ..network.advertisement import Advertisements, permits, tells
from ..network.configuration import Direction, Network

Cell = Tuple[str, str]
NONE, ANY = "none", math.inf


class Queues:
    """At most how many messages wait in each queue, where any may; and what routers chose, so far as that was asked."""

    def __init__(self, network: Network) -> None:
        self.network, self.telling = network, Advertisements(network)
        self.most: Dict[Direction, float] = {}
        self.chosen: Dict[str, Dict[str, Optional[str]]] = {}
        self.knows_all = True

    def copy(self, network: Network) -> "Queues":
        """The same for a copy of the network."""
        made = Queues(network)
        made.most, made.knows_all = dict(self.most), self.knows_all
        made.chosen = {router: dict(chosen) for router, chosen in self.chosen.items()}
        return made

    # What is known of a router's choice: the reply to `best`, or nothing where it may have changed since.

    def known(self, cell: Cell) -> Optional[str]:
        """What a router chose for a prefix, as `best` replies it, where that is known. One that was never told anything chose nothing."""
        return self.chosen.get(cell[0], {}).get(cell[1], NONE if self.knows_all else None)

    def _set(self, cell: Cell, reply: Optional[str]) -> None:
        self.chosen.setdefault(cell[0], {})[cell[1]] = reply

    def _forget(self, routers: Iterable[str]) -> None:
        for router in routers:
            self.chosen[router] = dict.fromkeys(self.chosen.get(router, ()))

    def _has_routes(self, router: str) -> bool:
        return not self.knows_all or bool(self.chosen.get(router))

    # What may have come into queues.

    def add(self, ways: Iterable[Direction], count: float) -> None:
        """So many messages more, or fewer, wait in these."""
        for way in ways:
            self.most[way] = self.most.get(way, 0) + count

    def forget_all(self) -> None:
        """Anything may wait anywhere, and any route may have been chosen."""
        self.chosen, self.knows_all = {}, False
        self.most = dict.fromkeys([(a, b) for one, other in self.network.sessions() for a, b in ((one, other), (other, one))], ANY)

    def after(self, words: List[str], reply: List[str]) -> None:
        """Notes what an accepted command may have put into queues. Noted twice it is right, too."""
        name = words[0]
        self.telling.forget(words[1:3] if name not in ("feed", "deliver") else ())
        if name == "feed":
            self.add([(words[1], words[2])], 1)
        elif name == "deliver":
            self.unsure((words[2], reply[0].split(" ")[1]), 1)
        elif name in ("origin", "noorigin"):
            self._set((words[1], words[2]), None)
            self.add([(words[1], peer) for peer in self.network.peers.get(words[1], ()) if self._is_told_own(words[1], peer, words[2])], 1)
        elif name == "self" or name in ("rule", "clear") and words[3] == "out":
            self.add([(words[1], words[2])] if self._has_routes(words[1]) else [], ANY)
        elif self.chosen or not self.knows_all:
            senders = {router for router in self.network.may_send(words) or () if self._has_routes(router)}
            self._forget(senders)
            self.add(self.network.directions(senders), ANY)

    def _is_told_own(self, router: str, peer: str, to: str) -> bool:
        """Whether a route that is its own, or a route in its place, may be told to the peer."""
        return permits(self.network.rules.get((router, peer, "out"), []), to, "-") or peer in self.telling.peers(router, to)

    def took(self, way: Direction) -> None:
        """A message was taken from a queue."""
        self.most[way] = self.most.get(way, ANY) - 1
        if self.most[way] <= 0:
            del self.most[way]

    def converged(self, cells: Iterable[Cell]) -> None:
        """No message waits, and what routers chose for these, about which they took messages, is not known."""
        self.most.clear()
        for cell in cells:
            if self.network.is_router(cell[0]):
                self._set(cell, None)

    def emptied(self, way: Direction) -> None:
        """Nothing waits there."""
        self.most.pop(way, None)

    def matters(self, cell: Cell) -> bool:
        """Whether a router that took a message may send something for it."""
        return self.network.is_router(cell[0]) and bool(self.telling.peers(*cell))

    def unsure(self, cell: Cell, count: int) -> None:
        """A router took so many messages about a prefix, and what it chose is not known."""
        if self.network.is_router(cell[0]):
            self._set(cell, None)
            self.add([(cell[0], peer) for peer in self.telling.peers(*cell)], count)

    def learn(self, cell: Cell, count: int, reply: str) -> None:
        """A router took so many messages about a prefix, and this is what it chose."""
        old = self.known(cell)
        self._set(cell, reply)
        if count == 1 and old == reply:
            return
        told = [peer for peer in self.telling.peers(*cell)
                if count > 1 or old is None or tells(self.network, cell[0], peer, old) or tells(self.network, cell[0], peer, reply)]
        self.add([(cell[0], peer) for peer in told], count)
