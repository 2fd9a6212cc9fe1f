"""Where everything stands: one layout of all that a script ever makes, so that nothing moves from one of its pictures
to the next.

Graphviz places all once. Then boxes that overlap are pushed apart, those of an AS first and then the ASes as wholes."""
from __future__ import annotations

import math
from dataclasses import dataclass
from typing import Callable, Dict, Iterable, List, Optional, Tuple

from . import graphviz
from .graphviz import Place
from .scene import Scene

GAP, BETWEEN, SIDE, HEADER = 34.0, 46.0, 14.0, 24.0
ROUNDS, FEWER_ROUNDS, LARGE = 300, 60, 100
# So much larger a picture may be for each box that a line does not pass through.
PASSED = 15.0
# By how much places inside an AS, and those of ASes, may be drawn together, across and down.
TIGHTER_INSIDE = [(across, down) for across in (0.8, 0.9, 1.0) for down in (0.6, 0.7, 0.85, 1.0)]
TIGHTER_BETWEEN = [(across / 10, down / 10) for across in range(3, 11) for down in range(2, 11)]


@dataclass
class Box:
    """A box by its middle and its size, y downwards."""
    x: float
    y: float
    width: float
    height: float

    @property
    def left(self) -> float:
        return self.x - self.width / 2

    @property
    def top(self) -> float:
        return self.y - self.height / 2

    def move(self, x: float, y: float) -> None:
        self.x, self.y = self.x + x, self.y + y

    def meets(self, other: "Box", gap: float = 0) -> bool:
        """Whether two come nearer than the gap."""
        return (abs(self.x - other.x) < (self.width + other.width) / 2 + gap
                and abs(self.y - other.y) < (self.height + other.height) / 2 + gap)

    def holds(self, x: float, y: float, gap: float = 0) -> bool:
        """Whether a point is in it, or nearer than the gap."""
        return abs(self.x - x) <= self.width / 2 + gap and abs(self.y - y) <= self.height / 2 + gap


@dataclass
class Layout:
    """The boxes of all routers and peers, and of their ASes."""
    spots: Dict[str, Box]
    groups: Dict[int, Box]


def arranged(scene: Scene, sizes: Dict[str, Tuple[float, float]], aspect: float,
             given: Optional[Dict[str, Place]] = None) -> Layout:
    """The layout of the routers, links and sessions of a scene, with these sizes of their boxes, about so much broader
    than high. Places that are given are packed; else Graphviz gives them."""
    pairs = pairs_of(scene)
    places = _turned(graphviz.placed(list(scene.spots), _lengths(sizes, pairs))) if given is None else given
    spots = {a: Box(x, y, *sizes[a]) for a, (x, y) in places.items()}
    if not scene.groups:
        pack(list(spots.values()), BETWEEN, TIGHTER_INSIDE, lambda boxes: _measure(boxes, aspect))
        return Layout(spots, {})
    for inside in scene.groups.values():
        pack([spots[a] for a in inside], GAP, TIGHTER_INSIDE, lambda boxes: _measure(boxes, aspect))
    groups = {asn: surrounding([spots[a] for a in inside]) for asn, inside in scene.groups.items()}
    before = [Box(box.x, box.y, box.width, box.height) for box in groups.values()]
    outer = [pair for pair, is_inside in pairs.items() if not is_inside]

    def measure(boxes: List[Box]) -> float:
        moved = _moved(scene, spots, before, boxes)
        return _measure(boxes, aspect) + PASSED * sum(_passed(moved, *pair) for pair in outer)
    pack(list(groups.values()), BETWEEN, TIGHTER_BETWEEN, measure)
    return Layout(_moved(scene, spots, before, list(groups.values())), groups)


def _moved(scene: Scene, spots: Dict[str, Box], before: List[Box], after: List[Box]) -> Dict[str, Box]:
    """The boxes in ASes, moved as the boxes of their ASes were."""
    return {a: Box(spots[a].x + new.x - old.x, spots[a].y + new.y - old.y, spots[a].width, spots[a].height)
            for inside, old, new in zip(scene.groups.values(), before, after) for a in inside}


def _passed(spots: Dict[str, Box], one: str, other: str) -> int:
    """How many boxes a straight line between two others passes through."""
    start, end = spots[one], spots[other]
    around = Box((start.x + end.x) / 2, (start.y + end.y) / 2, abs(start.x - end.x), abs(start.y - end.y))
    points = [(start.x + (end.x - start.x) * part / 16, start.y + (end.y - start.y) * part / 16)
              for part in range(1, 16)]
    return sum(any(box.holds(x, y, 4) for x, y in points)
               for a, box in spots.items() if box.meets(around) and a not in (one, other))


def surrounding(boxes: List[Box]) -> Box:
    """The box of an AS around its routers, with room for its label."""
    return bounds(boxes, SIDE, HEADER)


def bounds(boxes: List[Box], side: float = 0, header: float = 0) -> Box:
    """The box that holds these, with so much around it, and above."""
    left, right = min(box.left for box in boxes) - side, max(box.left + box.width for box in boxes) + side
    top, bottom = min(box.top for box in boxes) - header, max(box.top + box.height for box in boxes) + side
    return Box((left + right) / 2, (top + bottom) / 2, right - left, bottom - top)


def pack(boxes: List[Box], gap: float, factors: List[Tuple[float, float]],
         measure: Callable[[List[Box]], float]) -> None:
    """Draws boxes together by those factors at which the measure is least, and never nearer than the gap."""
    tried = [_drawn_together(boxes, gap, *each) for each in (factors if len(boxes) <= LARGE else factors[-1:])]
    chosen = min(tried, key=measure) if boxes else []
    for box, place in zip(boxes, chosen):
        box.x, box.y = place.x, place.y


def _drawn_together(boxes: List[Box], gap: float, across: float, down: float) -> List[Box]:
    moved = [Box(box.x * across, box.y * down, box.width, box.height) for box in boxes]
    push_apart(moved, gap)
    return moved


def _measure(boxes: List[Box], aspect: float) -> float:
    """How large a picture of this aspect has to be that holds these."""
    width = max(box.left + box.width for box in boxes) - min(box.left for box in boxes)
    height = max(box.top + box.height for box in boxes) - min(box.top for box in boxes)
    return max(width / aspect, height) + (width / aspect + height) / 50


def push_apart(boxes: List[Box], gap: float) -> None:
    """Moves boxes until none is nearer to another than the gap, each pair by the shorter way."""
    for _ in range(ROUNDS if len(boxes) <= LARGE else FEWER_ROUNDS):
        order = sorted(boxes, key=lambda box: box.left)
        moved = [_push(box, order[at + 1:], gap) for at, box in enumerate(order)]
        if not any(moved):
            return


def _push(box: Box, others: List[Box], gap: float) -> bool:
    """Moves a box and those right of it that it meets, half of what is needed each; whether there were any."""
    has_moved = False
    x, y, width, height = box.x, box.y, box.width, box.height
    for other in others:
        if other.x - other.width / 2 > x - width / 2 + width + gap:
            break
        across = (width + other.width) / 2 + gap - abs(x - other.x)
        down = (height + other.height) / 2 + gap - abs(y - other.y)
        if across > 0.5 and down > 0.5:
            has_moved = True
            right, low = (across / 2, 0.0) if across < down else (0.0, down / 2)
            right, low = right if other.x >= x else -right, low if other.y >= y else -low
            x, y = x - right, y - low
            other.move(right, low)
    box.x, box.y = x, y
    return has_moved


def pairs_of(scene: Scene) -> Dict[Tuple[str, str], bool]:
    """What draws two together: links, and what holds an AS and then the whole together where links do not; and whether
    that is inside an AS."""
    home = {a: asn for asn, inside in scene.groups.items() for a in inside}
    links = [(wire.one, wire.other) for wire in scene.wires if wire.is_link]
    found = {(one, other): home.get(one) == home.get(other) and bool(home) for one, other in links}
    for inside in scene.groups.values():
        found.update((held, True) for held in _holding(inside, found))
    sessions = [(wire.one, wire.other) for wire in scene.wires if not wire.is_link]
    found.update((held, False) for held in sessions if not scene.groups)
    found.update((held, False) for held in _holding(scene.spots, found))
    return found


def _holding(among: Iterable[str], pairs: Iterable[Tuple[str, str]]) -> List[Tuple[str, str]]:
    """Pairs that would connect all of these, one for each part that is not connected with the first."""
    names = list(among)
    there = set(names)
    parts = graphviz.parts(names, [pair for pair in pairs if there.issuperset(pair)])
    firsts = [min(part) for part in parts]
    return [(firsts[0], first) for first in firsts[1:]]


def _lengths(sizes: Dict[str, Tuple[float, float]], pairs: Dict[Tuple[str, str], bool]) -> Dict[Tuple[str, str], float]:
    """How far apart the two of each pair are to be: those of two ASes further than those inside one."""
    width = sum(size[0] for size in sizes.values()) / max(len(sizes), 1) + GAP
    return {pair: width * (1.0 if is_inside else 2.2) for pair, is_inside in pairs.items()}


def _turned(places: Dict[str, Place]) -> Dict[str, Place]:
    """The places turned so that the picture is broad, and the first one stands left of the middle."""
    count = max(len(places), 1)
    middle = (sum(x for x, _ in places.values()) / count, sum(y for _, y in places.values()) / count)
    away = {a: (x - middle[0], y - middle[1]) for a, (x, y) in places.items()}
    difference = sum(x * x - y * y for x, y in away.values())
    angle = -math.atan2(2 * sum(x * y for x, y in away.values()), difference) / 2
    cos, sin = math.cos(angle), math.sin(angle)
    if away and next(x * cos - y * sin for x, y in away.values()) > 0:
        cos, sin = -cos, -sin
    return {a: (x * cos - y * sin, x * sin + y * cos) for a, (x, y) in away.items()}
