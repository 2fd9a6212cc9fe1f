"""The lines that the program replies, as values."""
from __future__ import annotations

from dataclasses import asdict, dataclass
from typing import Dict, List, NamedTuple, Optional, Tuple

from . import communities
from .language import path_length
from .names import Names


@dataclass(frozen=True)
class Attributes:
    """The attributes of a route, as the program prints them; `-` for what is absent. Absent `comms` it leaves out."""
    path: str
    origin: str
    next: str
    med: str
    pref: str
    oid: str
    clusters: str
    comms: str = "-"

    @property
    def length(self) -> int:
        return path_length(self.path)

    @property
    def communities(self) -> List[int]:
        return [] if self.comms == "-" else [int(number) for number in self.comms.split(",")]

    def __str__(self) -> str:
        return " ".join("%s=%s" % pair for pair in asdict(self).items() if pair != ("comms", "-"))


@dataclass(frozen=True)
class Route:
    """A route to a prefix. The source is `self`, a peer's address, or nothing where the reply names none."""
    prefix: str
    source: Optional[str]
    attributes: Attributes


def attributes(text: str) -> Attributes:
    """What `path=.. origin=.. ..` says."""
    return Attributes(**dict(word.split("=", 1) for word in text.split(" ")))


def route(line: str) -> Route:
    """A line of `routes`, `best`, `in` or `out`."""
    prefix, rest = line.split(" ", 1)
    source = None
    if rest.startswith("from "):
        _, source, rest = rest.split(" ", 2)
    return Route(prefix, source, attributes(rest))


def route_text(route: Route, names: Names) -> str:
    """A route in few words, with the name of its source."""
    told = route.attributes
    words = "next %s, path %s, med %s" % (told.next, told.path, told.med)
    words = words if route.source is None else "from %s, %s, pref %s" % (names.shown(route.source), words, told.pref)
    return words + (", comms " + communities.told(told.communities) if told.communities else "")


def routes(reply: List[str]) -> Dict[str, Route]:
    """The reply to `routes`, `in` or `out`, by prefix."""
    return {found.prefix: found for found in map(route, reply[:-1])}


def best(reply: List[str]) -> Optional[Route]:
    """The reply to `best`."""
    return None if reply[0] == "none" else route(reply[0])


def reasons(reply: List[str]) -> List[Tuple[str, str]]:
    """The reply to `why`: each source with its reason."""
    return [(line.split(" ")[0], line.split(" ")[1]) for line in reply[:-1]]


def refusal(reply: List[str]) -> int:
    """The number by which a line was refused; 0 where it was not."""
    return int(reply[0].split(" ")[1]) if reply and reply[0].startswith("refused ") else 0


class Hop(NamedTuple):
    """A router that forwards a packet, and the prefix that it goes by."""
    router: str
    prefix: str


@dataclass(frozen=True)
class Trace:
    """Where a packet goes: each router that forwards it with the prefix that it goes by, how it ends and where."""
    hops: Tuple[Hop, ...]
    end: str
    place: str

    @property
    def routers(self) -> List[str]:
        return [router for router, _ in self.hops] + [self.place]


def trace(reply: List[str]) -> Trace:
    """The reply to `trace`."""
    hops = tuple(Hop(*line.split(" ")[:2]) for line in reply[:-2])
    end, place = reply[-2].split(" ")
    return Trace(hops, end, place)


def trace_text(found: Trace, names: Names) -> str:
    """A packet's way in few words, with the names of routers."""
    words = {"reached": "reached", "noroute": "no route there", "loop": "a loop"}
    return " > ".join(map(names.shown, found.routers)) + ": " + words[found.end]
