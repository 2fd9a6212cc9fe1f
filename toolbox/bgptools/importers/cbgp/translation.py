"""C-BGP scripts as a script, line by line."""
from __future__ import annotations

from typing import List

from ...network.configuration import Network
from ...program.mistakes import Mistake
from ..common.network_edits import Feeds, commands
from ..common.omissions import LeftOut, Place
from ..common.sources import MOST_UNPACKED, named
from . import network
from .checks import check
from .commands import Commands
from .lines import Line, Scripts
from .rules import PREFERENCE
from .script import Picture

HEAD = "# Preferences are C-BGP's and %d: a route to which nothing gives one has %d there, and %d here."
RUN = "# sim run: here C-BGP delivers all that waits, and `converge` does"


class Translation:
    """The script that is made of C-BGP's, line by line: what was built until a `sim run` is written there."""

    def __init__(self, files: List[str], most: int = MOST_UNPACKED) -> None:
        self.left = LeftOut()
        self.source = network.Network(self.left)
        self.made = Network()
        self.feeds: Feeds = {}
        self.lines: List[str] = []
        self.has_preference = False
        reader, scripts = Commands(self.source, self._run), Scripts(most)
        for file in files:
            for line in scripts.lines(file):
                reader.take(line)
        self._write()
        self._end([named(file) for file in files])

    def _end(self, files: List[str]) -> None:
        """What is said of the whole; raises Mistake where it has no router."""
        if not self.made.routers():
            raise Mistake("it has no router: `bgp add router AS A` is expected", files[0])
        if not self.source.has_run:
            self.left.note(Place(files[-1], 0), "it has no `sim run`: C-BGP delivers nothing; `converge` does")
        if self.has_preference and self.source.preference != PREFERENCE:
            self.lines.insert(0, HEAD % (PREFERENCE - self.source.preference, self.source.preference, PREFERENCE))

    def _run(self, line: Line) -> None:
        self._write()
        self.lines.append(RUN)

    def _line_of(self, where: str) -> Line:
        """The line that says of a node or a virtual peer what it is."""
        lines = [peer.line for (_, other), peer in self.source.peers.items() if other == where]
        return self.source.nodes[where].line if where in self.source.nodes else lines[-1]

    def _write(self) -> None:
        """Writes what was changed since it was written before."""
        picture = Picture(self.source)
        check(self.source, picture)
        for where, node in self.made.nodes.items():
            if picture.made.nodes.get(where) != node:
                raise self._line_of(where).mistake("what %s is, and its AS, cannot change behind a `sim run`; give "
                                                   "them before" % where)
        self.lines += commands(self.made, picture.made, self.feeds, picture.feeds)
        self.made, self.feeds = picture.made, picture.feeds
        self.has_preference = self.has_preference or picture.sets_preference()
