"""What a picture shows: routers or ASes, what lies between them, and words. It is plain data; others ask for it, place
it and draw it."""
from __future__ import annotations

from dataclasses import dataclass, field
from typing import Dict, Iterable, List, Set, Tuple

from ..network.configuration import Direction

# How things look: the colors of pictures and of DOT alike.
FILLS = ("#eef4fb", "#fdf3e7", "#eff8ee", "#f7eef8", "#fbf9e4", "#eef7f7", "#fbeeee", "#f3f3f3")
INTERNAL, EXTERNAL, DOWN, FORWARDS, WAY = "#2b6cb0", "#c05621", "#b8b8b8", "#2f855a", "#d53f8c"
LINK, DELIVERED, WAITING, EXIT, VIRTUAL, BORDER, INK, PALE = (
    "#4a5568", "#6b46c1", "#d69e2e", "#c6f0d0", "#f5f5f5", "#c8ccd2", "#1a202c", "#4a5568")



def readable(text: str) -> str:
    """A text of a script as it is shown: of UTF-8 where it is that, else of Latin-1; control bytes are spelled out."""
    try:
        text = text.encode("latin-1").decode("utf-8")
    except UnicodeError:
        pass
    return "".join(each if each.isprintable() else "\\x%02x" % ord(each) for each in text)


# What the legend says of each thing that a picture can show, in this order.
LEGEND = {
    "links": "a link of two ASes, or several", "sessions": "sessions of two ASes", "link": "link and its metric",
    "failed": "failed link", "internal": "session in an AS", "external": "session between ASes",
    "down": "session that is down", "client": "to a reflector's client", "virtual": "virtual peer, fed by hand",
    "forwards": "forwards this way", "exit": "exit of the AS, or origin", "way": "the packet that is followed",
    "waiting": "messages that wait, at their sender", "delivered": "just delivered (a withdrawal dashed)"}


@dataclass
class Spot:
    """A router or virtual peer, or an AS in a picture of ASes: its name, an address below it, and what is said of
    it."""
    name: str
    below: str = ""
    details: List[str] = field(default_factory=list)
    is_virtual: bool = False
    is_exit: bool = False
    is_on_way: bool = False

    @property
    def lines(self) -> List[str]:
        return [self.name] + ([self.below] if self.below else []) + self.details


@dataclass
class Wire:
    """A link or a session, or joined all those of two ASes. Arrows have a color; messages that wait a count, and
    delivered ones a text, by direction."""
    one: str
    other: str
    is_link: bool
    color: str
    label: str = ""
    is_up: bool = True
    arrows: Dict[Direction, str] = field(default_factory=dict)
    waiting: Dict[Direction, int] = field(default_factory=dict)
    delivered: Dict[Direction, List[str]] = field(default_factory=dict)
    is_joined: bool = False

    @property
    def key(self) -> "Tuple[str, str, bool]":
        return self.one, self.other, self.is_link

    def features(self) -> Set[str]:
        """What of the legend it shows."""
        kind = "link" if self.is_link else "internal" if self.color == INTERNAL else "external"
        if self.is_joined:
            kind = "links" if self.is_link else "sessions"
        found = {kind if self.is_up else "failed" if self.is_link else "down"}
        found |= {"client" if not self.is_link else "way" if color == WAY else "forwards"
                  for color in self.arrows.values()}
        return found | ({"waiting"} if self.waiting else set()) | ({"delivered"} if self.delivered else set())


@dataclass
class Scene:
    """A picture's content: its titles, ASes with who is in each, and all wires."""
    titles: List[str]
    groups: Dict[int, List[str]]
    spots: Dict[str, Spot]
    wires: List[Wire]

    def features(self) -> Set[str]:
        """What of the legend it shows."""
        found = {"virtual" for spot in self.spots.values() if spot.is_virtual}
        found |= {"exit" for spot in self.spots.values() if spot.is_exit}
        return found.union(*(wire.features() for wire in self.wires))


def legend_of(scenes: Iterable[Scene]) -> List[str]:
    """The names of what pictures show, in the legend's order."""
    found: Set[str] = set().union(*(scene.features() for scene in scenes))
    return [name for name in LEGEND if name in found]


def told(messages: List[str]) -> str:
    """Messages that were delivered, in few words."""
    return messages[0] if len(messages) == 1 else "%d messages" % len(messages)
