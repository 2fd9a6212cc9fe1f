"""Which way lines take past the boxes of others, and where labels stand so that no line crosses them. Done once for
all pictures of a script."""
from __future__ import annotations

import bisect
import functools
import math
from typing import Dict, Iterable, List, Sequence, Set, Tuple

from .layout import Box, Layout
from .shapes import Curve, Point, width_of

Key = Tuple[str, str, bool]
# The edges of a box: left, right, upper and lower.
Edges = Tuple[float, float, float, float]
STEPS = 16
BOWS = (0, 20, -20, 40, -40, 66, -66, 100, -100, 140, -140, 190, -190, 250, -250)
BESIDE = (14, -14, 28, -28)
PLACES = (0.5, 0.42, 0.58, 0.35, 0.65, 0.28, 0.72)
SHORT, ASIDE = 64.0, 11.0
SQUARE = 96.0
# Past so many boxes lines take the first way that there is, and labels the first place.
MANY = 150
GROUP_SIZE, LABEL_SIZE = 13.0, 11.0


def routed(layout: Layout, keys: Iterable[Key]) -> Dict[Key, Curve]:
    """The curve of each link and session. A session stands beside the link of the same two; none passes through a
    third box if that can be."""
    found: Dict[Key, Curve] = {}
    taken: Dict[Tuple[str, str], int] = {}
    edges = {a: _edges(box, 0) for a, box in layout.spots.items()}
    for one, other, is_link in sorted(keys, key=lambda key: (not key[2], key)):
        beside = taken.get((one, other))
        bows = list(BOWS)
        if beside is not None:
            bows = [beside + each for each in BESIDE] + [bow for bow in BOWS if abs(bow - beside) > 10]
        bows = bows if len(layout.spots) <= MANY else bows[:1]
        ends = edges[one], edges[other]
        others = _around_ends(ends, bows, edges, (one, other)) if len(bows) > 1 else []
        found[one, other, is_link], taken[one, other] = _route(*ends, tuple(bows), tuple(others))
    return found


def _around_ends(ends: Tuple[Edges, Edges], bows: List[int], edges: Dict[str, Edges],
                 names: Tuple[str, str]) -> List[Edges]:
    """The boxes that a curve between two may meet."""
    (x, y), (end_x, end_y) = map(_middle, ends)
    reach = max(abs(bow) for bow in bows) + 20
    left, right = min(x, end_x) - reach, max(x, end_x) + reach
    top, bottom = min(y, end_y) - reach, max(y, end_y) + reach
    return [each for a, each in edges.items() if each[0] < right and left < each[1] and each[2] < bottom
            and top < each[3] and a not in names]


@functools.lru_cache(maxsize=8192)
def _route(start: Edges, end: Edges, bows: Tuple[int, ...], others: Tuple[Edges, ...]) -> Tuple[Curve, int]:
    """The first of these bows between two boxes that is clear of others, or the one that meets the fewest; and its
    curve."""
    best, fewest = bows[0], math.inf
    for bow in bows if len(bows) > 1 else ():
        met = _met(_bowed(_middle(start), _middle(end), bow), others, fewest)
        if met < fewest:
            best, fewest = bow, met
        if not met:
            break
    return _clipped(_bowed(_middle(start), _middle(end), best), start, end), best


def _met(curve: Curve, others: Iterable[Edges], most: float) -> int:
    """How many boxes a curve passes through, or nearly; where it is so many, others are not looked at."""
    points = [curve.at(step / STEPS) for step in range(1, STEPS)]
    low, high, upper, lower = _bounds(points)
    count = 0
    for left, right, top, bottom in others:
        if left - 4 <= high and low <= right + 4 and top - 4 <= lower and upper <= bottom + 4:
            left, right, top, bottom = left - 4, right + 4, top - 4, bottom + 4
            count += any(left <= x <= right and top <= y <= bottom for x, y in points)
            if count >= most:
                break
    return count


def _holds(edges: Edges, x: float, y: float, gap: float) -> bool:
    """Whether a point is in a box, or nearer than the gap."""
    return edges[0] - gap <= x <= edges[1] + gap and edges[2] - gap <= y <= edges[3] + gap


def _middle(edges: Edges) -> Point:
    return (edges[0] + edges[1]) / 2, (edges[2] + edges[3]) / 2


def _edges(box: Box, gap: float) -> Edges:
    """The edges of a box with so much around it."""
    across, down = box.width / 2 + gap, box.height / 2 + gap
    return box.x - across, box.x + across, box.y - down, box.y + down


def _bowed(start: Point, end: Point, bow: float) -> Curve:
    """A curve of two middles that is so far out in its own middle."""
    (sx, sy), (ex, ey) = start, end
    length = math.hypot(ex - sx, ey - sy) or 1
    x = (sx + ex) / 2 + 2 * bow * (-(ey - sy) / length)
    y = (sy + ey) / 2 + 2 * bow * ((ex - sx) / length)
    return Curve(start, (x, y), end)


def _clipped(curve: Curve, start: Edges, end: Edges) -> Curve:
    """The piece of the curve that is outside of the boxes at its ends."""
    low, high = _leaves(curve, start, 0.0, 1.0), _leaves(curve, end, 1.0, 0.0)
    return curve.between(low, high) if low < high else curve


def _leaves(curve: Curve, edges: Edges, inside: float, outside: float) -> float:
    """Where a curve that begins in a box leaves it."""
    for _ in range(20):
        middle = (inside + outside) / 2
        if _holds(edges, *curve.at(middle), 1):
            inside = middle
        else:
            outside = middle
    return outside


class Taken:
    """Places that are taken: by boxes, and by labels. Those in each square are known, so that few are looked at."""

    def __init__(self, boxes: Iterable[Box]) -> None:
        self.squares: Dict[Tuple[int, int], List[Edges]] = {}
        for box in boxes:
            self.add(box)

    def add(self, box: Box) -> None:
        """Takes a place."""
        edges = _edges(box, 0)
        for square in _squares(edges):
            self.squares.setdefault(square, []).append(edges)

    def met(self, box: Box, gap: float = 0) -> Set[Edges]:
        """The places that a box comes nearer to than the gap."""
        left, right, top, bottom = edges = _edges(box, gap)
        return {each for square in _squares(edges) for each in self.squares.get(square, ())
                if each[0] < right and left < each[1] and each[2] < bottom and top < each[3]}


def _squares(edges: Edges) -> List[Tuple[int, int]]:
    """The squares that a box is in."""
    left, right, top, bottom = (math.floor(each / SQUARE) for each in edges)
    return [(x, y) for x in range(left, right + 1) for y in range(top, bottom + 1)]


class Labels:
    """Finds room for labels, one after another, beside boxes, lines and earlier labels."""

    def __init__(self, layout: Layout, curves: Dict[Key, Curve]) -> None:
        self.layout, self.curves = layout, curves
        self.taken = Taken(layout.spots.values())
        self.fixed = list(layout.spots.values())
        self.beside: List[Box] = []

    def of_groups(self) -> Dict[int, Box]:
        """Where the label of each AS stands: in or at its box, where no line crosses it."""
        found: Dict[int, Box] = {}
        lines = list(map(_points, self.curves.values()))
        for asn, group in self.layout.groups.items():
            width = width_of("AS %d" % asn, GROUP_SIZE, True) + 8
            left, right, top, bottom = around = _edges(group, 40)
            near = [point for points, edges in lines if _touch(edges, around) for point in points
                    if left <= point[0] <= right and top <= point[1] <= bottom]
            found[asn] = self._least(_around(group, width, GROUP_SIZE + 6), near)
            self.taken.add(found[asn])
            self.fixed.append(found[asn])
        for key, curve in self.curves.items():
            for is_first in (True, False) if not key[2] else ():
                self.taken.add(Box(*badge_place(curve, is_first), 17, 17))
        return found

    def _least(self, rows: List[List[Box]], points: List[Point]) -> Box:
        """The first place, of these rows of places, that has the least in its way."""
        best, least = rows[0][0], math.inf
        for row in rows:
            _, _, top, bottom = _edges(row[0], 3)
            across = sorted(x for x, y in points if top <= y <= bottom)
            for box in row:
                left, right, _, _ = _edges(box, 3)
                trouble = bisect.bisect_right(across, right) - bisect.bisect_left(across, left)
                if trouble < least:
                    trouble += self._trouble(box)
                if trouble < least:
                    best, least = box, trouble
                if not least:
                    return best
        return best

    def _trouble(self, box: Box) -> int:
        """How much stands in the way of a label of an AS: other boxes, and other ASes."""
        over = len(self.taken.met(box, 1))
        edges = sum(box.meets(group) and not _contains(group, box) for group in self.layout.groups.values())
        return 1000 * over + 1000 * max(edges - 1, 0)

    def on_line(self, key: Key, text: str) -> Box:
        """Where a label stands on a line, or beside one that is short."""
        width, curve = width_of(text, LABEL_SIZE) + 6, self.curves[key]
        boxes = [Box(*curve.at(part), width, LABEL_SIZE + 4) for part in PLACES]
        if curve.length < SHORT + width:
            boxes = _beside(curve, width) + boxes
        chosen = boxes[0]
        if len(self.layout.spots) <= MANY:
            chosen = next((box for box in boxes if not self.taken.met(box)), chosen)
        self.taken.add(chosen)
        self.beside.append(chosen)
        return chosen

    def over_line(self, key: Key, width: float, height: float) -> Box:
        """Where something stands on a line for a while: over as few boxes and labels of ASes as can be, and then over
        as few other labels."""
        boxes = [Box(*self.curves[key].at(part), width, height) for part in PLACES]
        return min(boxes, key=lambda box: (sum(box.meets(each) for each in self.fixed),
                                           sum(box.meets(each) for each in self.beside)))


def badge_place(curve: Curve, is_first: bool) -> Tuple[float, float]:
    """Where messages that wait are counted: near the end of the session that sends them."""
    part = min(18 / max(curve.length, 1), 0.3)
    return curve.at(part if is_first else 1 - part)


@functools.lru_cache(maxsize=8192)
def _points(curve: Curve) -> Tuple[Tuple[Point, ...], Edges]:
    """Points on a curve, at most three apart, and the box that holds them."""
    count = int(curve.length / 3) + 1
    points = tuple(curve.at(step / count) for step in range(count + 1))
    return points, _bounds(points)


def _beside(curve: Curve, width: float) -> List[Box]:
    """The places for a label on either side of a line."""
    (ax, ay), (bx, by), (x, y) = curve.start, curve.end, curve.at(0.5)
    length = math.hypot(bx - ax, by - ay) or 1
    across, down = -(by - ay) / length, (bx - ax) / length
    reach = ASIDE * abs(down) + (width / 2 + 3) * abs(across)
    return [Box(x + side * across * reach, y + side * down * reach, width, LABEL_SIZE + 2) for side in (1, -1)]


def _contains(outer: Box, inner: Box) -> bool:
    return outer.left <= inner.left and outer.top <= inner.top and (
        inner.left + inner.width <= outer.left + outer.width and inner.top + inner.height <= outer.top + outer.height)


def _around(group: Box, width: float, height: float) -> List[List[Box]]:
    """The places for an AS's label, row by row: in its upper and lower margin, then outside above and below."""
    count = max(int((group.width - width - 12) / 12), 0) + 1
    lefts = [group.left + 6 + number * 12 for number in range(count)]
    tops = (group.top + 3, group.top + group.height - height - 1, group.top - height - 1, group.top + group.height + 1)
    return [[Box(left + width / 2, top + height / 2, width, height) for left in lefts] for top in tops]


def _bounds(points: Sequence[Point]) -> Edges:
    """The edges of a box that holds these."""
    xs, ys = zip(*points)
    return min(xs), max(xs), min(ys), max(ys)


def _touch(one: Edges, other: Edges) -> bool:
    """Whether two boxes have a point in common."""
    return one[0] <= other[1] and other[0] <= one[1] and one[2] <= other[3] and other[2] <= one[3]
