"""The converged tables of a network that is played by its prefixes, some at a time, by several processes.

Prefixes do not meet in the decision, and no next hop is looked up among the routes. So what each part of the network
converges in, the whole network converges in; and where it has one stable state, that is it."""
from __future__ import annotations

import argparse
from dataclasses import dataclass, field
from typing import Dict, List, Optional, Tuple

from ..network.prefix_parts import Parts, prefix_of
from ..program.line_count import check_length
from ..program.process_pool import ProcessPool, Workers, processors
from ..program.progress import Clock
from ..program.script import Line
from .delivery_script import converged
from .orders import order_of
from .run import Run, Snapshot, not_converged

# A router's chosen routes, as lines; and how a part does not converge, if it does not.
Part = Tuple[Dict[str, bytes], str]


@dataclass
class Tables:
    """The chosen routes of all routers, by part, and how parts do not converge."""
    routers: List[str] = field(default_factory=list)
    parts: List[Dict[str, bytes]] = field(default_factory=list)
    endless: List[str] = field(default_factory=list)

    def content(self) -> bytes:
        """For each router the question for its routes, and the reply: parts are in the order of their prefixes."""
        pieces: List[bytes] = []
        for router in self.routers:
            found = [part[router] for part in self.parts]
            count = sum(piece.count(b"\n") for piece in found)
            pieces += [b"routes %s\n" % router.encode(), *found, b"end %d\n" % count]
        return b"".join(pieces)


class Converges(ProcessPool[int]):
    """Converges parts of a script, by their numbers. All begin with `head`, which tells of no prefix: it is played
    once, and taken back for each part."""

    def __init__(self, head: List[Line], parts: List[List[Line]], chosen: argparse.Namespace) -> None:
        self.head, self.parts, self.chosen = head, parts, chosen
        self.run: Optional[Run] = None
        self.kept: Optional[Snapshot] = None
        self.written: List[str] = []

    def __call__(self, task: int) -> Part:
        run = self._at_head(self.parts[task])
        _, endless = converged(run, self.parts[task], self.chosen.at_end, self.written)
        if endless:
            return {}, not_converged(endless, run.network.names, self.chosen.all)
        routers = run.network.routers()
        replies = run.ask("routes " + router for router in routers)
        return {router: "".join(line + "\n" for line in reply[:-1]).encode("latin-1")
                for router, reply in zip(routers, replies)}, ""

    def _at_head(self, part: List[Line]) -> Run:
        """The run, to which only the head was given."""
        lines = self.head + part
        check_length(len(lines), lines[0].file if lines else None)
        if self.run is None or self.kept is None:
            self.run = Run(order_of(self.chosen), self.chosen.most, tries_others=True)
            self.written = converged(self.run, self.head, self.chosen.at_end)[0].lines
        else:
            self.run.restore(self.kept)
        self.kept = self.run.snapshot()
        return self.run

    def close(self) -> None:
        if self.run:
            self.run.close()


def tables_of(lines: List[Line], chosen: argparse.Namespace) -> Tables:
    """The tables of a script that is converged with `by_prefix` of its prefixes at a time."""
    begin = next((at for at, line in enumerate(lines) if prefix_of(line)), len(lines))
    head, parts = lines[:begin], Parts(lines, [], chosen.by_prefix, has_inner_together=False).of(lines[begin:])
    left, found = list(range(len(parts))), {}  # type: List[int], Dict[int, Part]
    clock = Clock(len(parts), 0)
    with Workers[int](min(chosen.jobs or processors(), len(parts)), lambda: Converges(head, parts, chosen)) as workers:
        try:
            for number, part in workers.results(lambda _: left.pop(0) if left else None):
                found[number] = part
                clock.tell()
        finally:
            clock.end()
    routers = list(found[0][0])
    return Tables(routers, [found[number][0] for number in range(len(parts))], list(dict.fromkeys(
        text for _, text in found.values() if text)))
