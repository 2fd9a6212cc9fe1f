"""The places of a network that grows while it is looked at: what is there stays where it is, and what comes is placed
beside it."""
from __future__ import annotations

import math
from dataclasses import replace
from typing import Dict, Iterable, List, Set, Tuple

from ..network.graph_search import neighbours
from .graphviz import Place, placed
from .layout import BETWEEN, GAP, HEADER, Box, Layout, arranged, bounds, pairs_of, push_apart, surrounding
from .scene import Scene

Size = Tuple[float, float]
# Where one more box may stand, beside another one: so many of its own breadths and heights away.
AROUND = [(x, y) for x in (-1, 0, 1) for y in (-1, 0, 1) if x or y]
# A place where ASes have to make room is so much worse than one that is as far away.
ROOM = 2000.0


class IncrementalLayout:
    """The boxes of all that a network has. A router has its place for good from its first link or session on; where
    ASes have to make room for a new one they move as wholes. Where more than half is new, all is placed anew."""

    def __init__(self, length: float, aspect: float) -> None:
        self.length, self.aspect = length, aspect
        self.places: Dict[str, Place] = {}
        self.spots: Dict[str, Box] = {}
        # Those that have no link and no session yet.
        self.loose: Set[str] = set()

    def layout(self, scene: Scene, sizes: Dict[str, Size]) -> Layout:
        """The layout of a scene that has all of the network, which the caller may move."""
        near = neighbours((wire.one, wire.other) for wire in scene.wires)
        stay = {a: box for a, box in self.spots.items() if a in scene.spots and not (a in self.loose and a in near)}
        if 2 * len(stay) < len(scene.spots) or not scene.groups:
            self._place_all(scene, sizes)
        else:
            self._place_more(scene, sizes, stay, near)
        self.loose = {a for a in scene.spots if a not in near}
        return Layout({a: replace(self.spots[a]) for a in scene.spots}, _groups(scene, self.spots))

    def _place_all(self, scene: Scene, sizes: Dict[str, Size]) -> None:
        self.places = placed(list(scene.spots), dict.fromkeys(pairs_of(scene), self.length), self.places)
        self.spots = arranged(scene, sizes, self.aspect, dict(self.places)).spots

    def _place_more(self, scene: Scene, sizes: Dict[str, Size], stay: Dict[str, Box],
                    near: Dict[str, List[str]]) -> None:
        """Places what is new beside what stays."""
        has_grown = any((box.width, box.height) != sizes[a] for a, box in stay.items())
        self.spots = {a: Box(box.x, box.y, *sizes[a]) for a, box in stay.items()}
        new = [a for a in scene.spots if a not in stay]
        home = {a: asn for asn, inside in scene.groups.items() for a in inside}
        for a in new:
            groups = {asn: self._there(inside) for asn, inside in scene.groups.items()}
            others = [surrounding(boxes) for asn, boxes in groups.items() if boxes and asn != home[a]]
            self.spots[a] = _beside(Box(0, 0, *sizes[a]), groups[home[a]], others, self._there(near.get(a, ())))
        if new or has_grown:
            self._make_room(scene)
        self.places = {a: (box.x, box.y) for a, box in self.spots.items()}

    def _there(self, names: Iterable[str]) -> List[Box]:
        """The boxes of those among these that have a place."""
        return [self.spots[a] for a in names if a in self.spots]

    def _make_room(self, scene: Scene) -> None:
        """Moves boxes of an AS, and then ASes, that have come too near."""
        for inside in scene.groups.values():
            push_apart([self.spots[a] for a in inside], GAP)
        before, after = _groups(scene, self.spots), _groups(scene, self.spots)
        push_apart(list(after.values()), BETWEEN)
        for asn, inside in scene.groups.items():
            for a in inside:
                self.spots[a].move(after[asn].x - before[asn].x, after[asn].y - before[asn].y)


def _groups(scene: Scene, spots: Dict[str, Box]) -> Dict[int, Box]:
    """The boxes of the ASes."""
    return {asn: surrounding([spots[a] for a in inside]) for asn, inside in scene.groups.items()}


def _beside(box: Box, inside: List[Box], others: List[Box], towards: List[Box]) -> Box:
    """The box where it stands best: beside those of its AS, or else beside other ASes; near to those that it is linked
    to, and where no AS has to make room."""
    gap, around = (GAP, inside) if inside else (BETWEEN + HEADER, others)
    aims = towards or around
    known = [bounds(inside)] if inside else []

    def worse(place: Box) -> float:
        away = sum(math.hypot(place.x - aim.x, place.y - aim.y) for aim in aims) / max(len(aims), 1)
        own = surrounding(known + [place]) if others else place
        return away + ROOM * sum(own.meets(other, BETWEEN - 1) for other in others)
    best_first = sorted(_places(box, around, gap), key=worse)
    return next((place for place in best_first if not any(place.meets(each, gap - 1) for each in inside)), box)


def _places(box: Box, around: Iterable[Box], gap: float) -> List[Box]:
    """Where a box may stand beside others, on all sides of each."""
    return [replace(box, x=each.x + x * ((each.width + box.width) / 2 + gap),
                    y=each.y + y * ((each.height + box.height) / 2 + gap)) for each in around for x, y in AROUND]
