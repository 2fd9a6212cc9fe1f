"""A picture of ASes in place of one of routers, for networks that are too large for that."""
from __future__ import annotations

from typing import Dict, Iterable, List, Tuple

from ..network.configuration import Direction
from .scene import EXTERNAL, LINK, WAY, Scene, Spot, Wire


def overview(scene: Scene) -> Scene:
    """The scene with one box an AS. Between two there is one line for all links and one for all sessions, with their
    counts."""
    home = {a: "AS %d" % asn for asn, inside in scene.groups.items() for a in inside}
    spots = {"AS %d" % asn: _area(asn, [scene.spots[a] for a in inside]) for asn, inside in scene.groups.items()}
    between: Dict[Tuple[str, str, bool], List[Wire]] = {}
    for wire in scene.wires:
        one, other = sorted((home[wire.one], home[wire.other]), key=lambda name: int(name[3:]))
        if one == other:
            _inside(spots[one], wire)
        else:
            between.setdefault((one, other, wire.is_link), []).append(wire)
    joined = [_joined(*key, wires, home, len(between.get((*key[:2], True), ()))) for key, wires in between.items()]
    return Scene(scene.titles, {}, spots, joined)


def counted(count: int, name: str) -> str:
    """A number of things, by a name that takes an s."""
    return "%d %s%s" % (count, name, "" if count == 1 else "s")


def _area(asn: int, spots: List[Spot]) -> Spot:
    """An AS: who is in it, and how many of its routers have a route where that is shown."""
    routers = [spot for spot in spots if not spot.is_virtual]
    details = [counted(len(routers), "router")] if routers else []
    if len(spots) > len(routers):
        details.append(counted(len(spots) - len(routers), "virtual peer"))
    lacking = sum(spot.details == ["no route"] for spot in routers)
    if any(spot.is_exit for spot in routers) or lacking:
        count = "all" if not lacking else "none" if lacking == len(routers) else str(len(routers) - lacking)
        details.append("%s with a route" % count)
        details += _common(line for spot in routers for line in spot.details if line.startswith("path "))
    is_origin, is_on_way = any("its own" in spot.details for spot in spots), any(spot.is_on_way for spot in spots)
    return Spot("AS %d" % asn, "", details, not routers, is_origin, is_on_way)


def _common(lines: Iterable[str]) -> List[str]:
    """The paths that routers of an AS have: the one, or how many."""
    found = sorted(set(lines))
    return found if len(found) < 2 else ["%d different paths" % len(found)]


def _inside(spot: Spot, wire: Wire) -> None:
    """Adds to an AS the messages that wait within it."""
    known = [line for line in spot.details if line.endswith("inside")]
    count = sum(wire.waiting.values()) + (int(known[0].split(" ")[0]) if known else 0)
    if wire.waiting:
        spot.details[:] = [line for line in spot.details if line not in known] + ["%d waiting inside" % count]


def _joined(one: str, other: str, is_link: bool, wires: List[Wire], home: Dict[str, str], links: int) -> Wire:
    """All links, or all sessions, of two ASes as one line, with their count; but as many sessions as links have none."""
    down = sum(not wire.is_up for wire in wires)
    label, is_up = "down" if down else "", down < len(wires)
    if len(wires) > 1 and (is_link or down or len(wires) != links):
        label = counted(len(wires), "link" if is_link else "session") + (", %d down" % down if down else "")
    joined = Wire(one, other, is_link, LINK if is_link else EXTERNAL, label, is_up, is_joined=True)

    def along(way: Direction) -> Direction:
        return home[way[0]], home[way[1]]
    for wire in wires:
        for way, color in wire.arrows.items():
            if is_link:
                joined.arrows[along(way)] = color if joined.arrows.get(along(way)) != WAY else WAY
        for way, count in wire.waiting.items():
            joined.waiting[along(way)] = joined.waiting.get(along(way), 0) + count
        for way, messages in wire.delivered.items():
            joined.delivered.setdefault(along(way), []).extend(messages)
    return joined
