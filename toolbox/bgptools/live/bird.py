"""What BIRD 2 answers to `show route all`."""
from __future__ import annotations

import re
from typing import Dict, List, Optional, Tuple

from ..program.language import prefix as prefix_of
from ..program.mistakes import Mistake
from .routes import LiveRoute

ABSENT = -1
_TABLE = re.compile(r"Table (\S+):")
# A route: its prefix, which is left out behind the first one, its kind, and who told it; a `*` marks the one in use.
_ROUTE = re.compile(r"(\S+)?\s+(unicast|blackhole|unreachable|prohibited|multicast) \[(\S+) [^\]]*?(?: ?from (\S+?))?\]"
                    r"( \*)?.*")
_VIA = re.compile(r"\s+via (\S+) on .*")
_COMMUNITY = re.compile(r"\(([0-9]{1,5}),([0-9]{1,5})\)")
_ATTRIBUTE = re.compile(r"\s+([A-Za-z][\w.]*): ?(.*)")


class _Entry:
    """A route as it is read."""

    def __init__(self, prefix: str, peer: str, is_used: bool) -> None:
        self.prefix, self.peer, self.is_used = prefix, peer, is_used
        self.way = ""
        self.said: Dict[str, str] = {}


def routes_of(text: str, file: str) -> List[LiveRoute]:
    """The routes of IPv4 in use, of the table master4 or the only one; raises Mistake where the text is no such
    answer."""
    entries = _entries(text)
    if not entries and not _TABLE.search(text):
        raise Mistake("it is no answer of BIRD 2; save that of `show route all`", file)
    return [_route(entry) for entry in entries if entry.is_used and prefix_of(entry.prefix) is not None]


def _entries(text: str) -> List[_Entry]:
    """The routes of the table master4, or of what stands before any table's name."""
    found: List[_Entry] = []
    table, prefix = "master4", ""
    for line in text.split("\n"):
        head, start = _TABLE.fullmatch(line.rstrip()), _ROUTE.fullmatch(line.rstrip())
        if head is not None:
            table = head.group(1)
        elif table != "master4":
            continue
        elif start is not None:
            prefix = start.group(1) or prefix
            found.append(_Entry(prefix, start.group(4) or "", start.group(5) is not None))
        elif found:
            _take(found[-1], line.rstrip())
    return found


def _take(entry: _Entry, line: str) -> None:
    """A line below a route."""
    via, said = _VIA.fullmatch(line), _ATTRIBUTE.fullmatch(line)
    if via is not None:
        entry.way = entry.way or via.group(1)
    elif said is not None:
        entry.said[said.group(1)] = said.group(2)


def _route(entry: _Entry) -> LiveRoute:
    said, is_bgp = entry.said, entry.said.get("Type", "").startswith("BGP")
    if not is_bgp:
        return LiveRoute(entry.prefix, "", "", "-", None, None, None, False)
    return LiveRoute(entry.prefix, entry.peer or entry.way, said.get("BGP.next_hop", "").split(" ")[0],
                     _path(said.get("BGP.as_path", "")), _number(said.get("BGP.med")),
                     _number(said.get("BGP.local_pref")),
                     _communities(said.get("BGP.community", "")))


def _path(said: str) -> str:
    sets = re.sub(r"\{ *([^}]*?) *\}", lambda found: "{%s}" % found.group(1).replace(" ", ","), said.strip())
    return sets.replace(" ", ",") or "-"


def _number(said: Optional[str]) -> int:
    return int(said) if said is not None and said.isdigit() else ABSENT


def _communities(said: str) -> Tuple[int, ...]:
    """The communities, as `(65001,7) (65001,8)`."""
    return tuple(sorted(int(high) << 16 | int(low) for high, low in _COMMUNITY.findall(said)))
