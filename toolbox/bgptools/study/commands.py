"""The tools that a study may call, and their words: each is one that is known here, and each path is inside of the study.

Nothing else of a study is ever run."""
from __future__ import annotations

import argparse
import contextlib
import io
import re
from dataclasses import dataclass
from typing import Any, Callable, List, Mapping, NamedTuple, Optional, Tuple

from ..convergence.orders import Order, named, order_of
from ..program.mistakes import Mistake
from . import paths

# Gives the parser of a tool's command line.
ParserOf = Callable[[str], argparse.ArgumentParser]
WORD = re.compile("[ -~]{1,255}")
MOST_WORDS = 100


class Tool(NamedTuple):
    """The words of a tool, as its parser calls them: which are files that it reads, a folder of such, files that it
    writes, and what else a study may set. `plays` are the scripts that it plays, converged after each."""
    reads: Tuple[str, ...]
    settings: Tuple[str, ...]
    folders: Tuple[str, ...] = ()
    writes: Tuple[str, ...] = ()
    plays: Tuple[str, ...] = ()


ORDER = ("order", "by_router", "seed")
PART = ("peers", "under", "sample", "seed", "by_prefix")
TOOLS: Mapping[str, Tool] = {
    "converge": Tool(("script",), (*ORDER, "at_end", "states", "stable", "prefix", "state", "bound", "most", "all", "by_prefix",
                                   "json"), (), ("out",), ("script",)),
    "what-if": Tool(("base", "change"), (*ORDER, "trace", "each", "all", "json", "most"), (), (),
                    ("base", "change")),
    "explain": Tool(("script",), (*ORDER, "router", "prefix", "to", "converge", "json"), (), (), ("script",)),
    "sweep": Tool(("base",), ("fail_links", "fail_routers", "fail_sessions", "pairs", "sample", "seed", "hijack", "orders",
                              "csv", "order", "most", "by_prefix"), ("changes",), ("out",), ("base",)),
    "hijack": Tool(("file", "pairs"), ("kind", "count", "seed", "rov", "peerlock", "played"), (), ("csv", "out")),
    "timeline": Tool(("script",), ("order", "seed", "prefix", "at", "csv", "json", "most"), (), ("picture",), ("script",)),
    "from-as-rel": Tool(("file",), ("about", "observers", "check", "leak", "core", "origins", "communities", "all", "strict"),
                        (), ("out",)),
    "from-graph": Tool(("file",), ("asn", "cost", "speed", "reflectors", "external", "origin", "strict"), (), ("out",)),
    "from-rib": Tool(("file",), (*PART, "router", "asn", "communities", "strict"), (), ("out",)),
    "from-mrt": Tool(("files", "table"), (*PART, "begin", "end", "router", "asn", "communities", "strict"), (), ("out",))}


@dataclass(frozen=True)
class Command:
    """A call of a tool. `chosen` are its words as the tool takes them."""
    tool: str
    words: Tuple[str, ...]
    chosen: argparse.Namespace

    @property
    def line(self) -> str:
        """The call as one types it where the tools are installed."""
        return " ".join(["bgpsim-" + self.tool, *map(_quoted, self.words)])

    @property
    def reads(self) -> List[str]:
        """The files that it reads."""
        return self._of(TOOLS[self.tool].reads)

    @property
    def folders(self) -> List[str]:
        """The folders of which it reads all files."""
        return self._of(TOOLS[self.tool].folders)

    @property
    def writes(self) -> List[str]:
        """The files that it writes."""
        return self._of(TOOLS[self.tool].writes)

    @property
    def plays(self) -> List[str]:
        """The scripts that it plays, converged after each; none where it plays a script in parts."""
        return [] if getattr(self.chosen, "by_prefix", None) else self._of(TOOLS[self.tool].plays)

    def order(self) -> Optional[Order]:
        """The order in which it delivers messages; nothing where it delivers none."""
        if not TOOLS[self.tool].plays:
            return None
        return order_of(self.chosen) if hasattr(self.chosen, "by_router") else named(self.chosen.order or "fair")

    def _of(self, names: Tuple[str, ...]) -> List[str]:
        found: List[str] = []
        for value in (getattr(self.chosen, name) for name in names):
            found += value if isinstance(value, list) else [] if value is None else [value]
        return found


def command_of(words: Any, where: str, parser_of: ParserOf) -> Command:
    """A command of a study. Mistake, with where it stands, for another tool, an option that no study has, or a path that
    leaves the study."""
    if not isinstance(words, list) or not words or len(words) > MOST_WORDS or not all(
            isinstance(word, str) and WORD.fullmatch(word) for word in words):
        raise Mistake('%s: a tool and its words are expected, each in printable ASCII, as ["converge", "net.bgp"]' % where)
    if words[0] not in TOOLS:
        raise Mistake("%s: `%s` is no tool of a study: there are %s" % (where, words[0], ", ".join(TOOLS)))
    parser = parser_of(words[0])
    found = Command(words[0], tuple(words[1:]), _parsed(parser, words[1:], where))
    _check_settings(found, parser, where)
    for path in found.reads + found.folders + found.writes:
        paths.check(path, where)
    found.order()
    return found


def _parsed(parser: argparse.ArgumentParser, words: List[str], where: str) -> argparse.Namespace:
    """The words as the tool takes them. Options are written out, and those that print and end are mistakes."""
    parser.allow_abbrev = False
    told = io.StringIO()
    with contextlib.redirect_stderr(told), contextlib.redirect_stdout(io.StringIO()):
        try:
            return parser.parse_args(words)
        except SystemExit:
            lines = told.getvalue().strip().split("\n")
            raise Mistake("%s: %s" % (where, lines[-1] or "a call that prints no result is none of a study")) from None


def _check_settings(command: Command, parser: argparse.ArgumentParser, where: str) -> None:
    """Mistake for an option that is set, and is none of a study."""
    tool = TOOLS[command.tool]
    known = {*tool.reads, *tool.folders, *tool.writes, *tool.settings}
    for name, value in vars(command.chosen).items():
        if name not in known and value != parser.get_default(name):
            raise Mistake("%s: `--%s` is none of a study: leave it out. It has what changes results, and is the same for "
                          "any program" % (where, name.replace("_", "-")))


def _quoted(word: str) -> str:
    return word if re.fullmatch("[A-Za-z0-9_./:,+=@-]+", word) else "'%s'" % word.replace("'", "'\\''")
