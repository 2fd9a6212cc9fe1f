"""Draws scenes: all of one script on one layout, so that what stays is drawn at the same place in each."""
from __future__ import annotations

import functools
from typing import Callable, Dict, List, Optional, Tuple, TypeVar

from .edge_routing import GROUP_SIZE, LABEL_SIZE, Key, Labels, badge_place, routed
from .layout import Box, Layout, arranged
from .scene import (
    BORDER, DELIVERED, DOWN, EXIT, EXTERNAL, FILLS, FORWARDS, INK, INTERNAL, LEGEND, LINK, PALE, VIRTUAL, WAITING,
    WAY, Scene, Spot, Wire, legend_of, told
)
from .shapes import Circle, Curve, Part, Pen, Rectangle, Shape, Text, arrow, svg_head, width_of

Item = TypeVar("Item")
HEAD_SIZE, TEXT_SIZE, TITLE_SIZE, LEGEND_SIZE = 13.0, 11.0, 15.0, 11.0
MARGIN, SAMPLE, ROW = 14.0, 34.0, 20.0
# A legend that is broader than this, and than the picture, goes on in another row.
LEGEND_WIDTH = 640.0
# On so many sessions what was delivered is written out.
FEW = 4
# How much broader than high a picture is to be: on a slide of its own, and beside words.
SLIDE, BESIDE_WORDS = 1.75, 1.5


class Drawing:
    """All pictures of a script: the scenes share places, lines and labels."""

    def __init__(self, scenes: List[Scene], aspect: float = SLIDE, layout: Optional[Layout] = None) -> None:
        """With a layout of its own it has no legend either."""
        whole = united(scenes)
        self.legend = [] if layout else legend_of(scenes)
        self.layout = layout or arranged(whole, sizes_of(scenes), aspect)
        keys = {wire.key for wire in whole.wires}
        self.title_height = max(len(scene.titles) for scene in scenes) * (TITLE_SIZE + 6)
        self.curves: Dict[Key, Curve] = routed(self.layout, keys)
        self.places = Labels(self.layout, self.curves)
        self.group_labels = self.places.of_groups()
        self.labels = {wire.key: self.places.on_line(wire.key, wire.label) for wire in whole.wires if wire.label}
        self.width = self.height = 0.0
        self._into_view(scenes, aspect)
        self.fills = {asn: FILLS[number % len(FILLS)] for number, asn in enumerate(sorted(self.layout.groups))}
        self.made: Dict[Tuple[object, ...], Tuple[object, Part]] = {}

    def _into_view(self, scenes: List[Scene], aspect: float) -> None:
        """Moves all so that it begins in the upper left corner, under the titles, and measures the picture."""
        fixed = [*self.layout.spots.values(), *self.layout.groups.values()]
        fixed += [*self.group_labels.values(), *self.labels.values()]
        edges = [(box.left, box.left + box.width, box.top, box.top + box.height) for box in fixed]
        edges += map(_around, self.curves.values())
        left, top = min((each[0] for each in edges), default=0), min((each[2] for each in edges), default=0)
        right, end = max((each[1] for each in edges), default=0), max((each[3] for each in edges), default=0)
        legend = min(sum(map(_entry_width, self.legend)), max((end - top) * aspect, LEGEND_WIDTH))
        broad = max([width_of(title, TITLE_SIZE) for scene in scenes for title in scene.titles]
                    + [right - left, legend, 360.0])
        x, y = MARGIN + (broad - (right - left)) / 2 - left, MARGIN + self.title_height - top
        for box in fixed:
            box.move(x, y)
        self.curves = self.places.curves = {key: curve.moved(x, y) for key, curve in self.curves.items()}
        self.width = broad + 2 * MARGIN
        self.body_end = end + y + MARGIN
        self.height = self.body_end + len(self._legend_rows()) * ROW + (6 if self.legend else 0)

    def parts(self, scene: Scene) -> List[Part]:
        """A scene's parts, what is behind first. What is equal in the scene before is the same part again."""
        made = [self._same(("group", asn), asn, self._group) for asn in scene.groups]
        made += [self._same(("line", *wire.key), wire, self._line) for wire in scene.wires]
        made += [self._same(("spot", a), (a, spot), lambda item: self._spot(*item)) for a, spot in scene.spots.items()]
        made += [self._same(("plate", *wire.key), (wire.key, wire.label, wire.is_up), lambda item: self._plate(*item))
                 for wire in scene.wires if wire.label]
        made += [self._same(("label", asn), asn, lambda item: Part(self._group_label(item))) for asn in scene.groups]
        is_crowded = sum(len(wire.delivered) for wire in scene.wires) > FEW
        made += [part for wire in scene.wires for part in self._delivered(wire, is_crowded) + self._waiting(wire)]
        titles = [Part((Text(self.width / 2, MARGIN + 4 + number * (TITLE_SIZE + 6), title, TITLE_SIZE),))
                  for number, title in enumerate(scene.titles)]
        return made + titles + self._legend()

    def _same(self, key: Tuple[object, ...], item: Item, make: Callable[[Item], Part]) -> Part:
        """The part of something; the one that was made before where that was equal."""
        before = self.made.get(key)
        if before is None or before[0] != item:
            before = self.made[key] = (item, make(item))
        return before[1]

    def svg(self, scene: Scene) -> str:
        """A scene as a picture of its own."""
        return "\n".join([svg_head(self.width, self.height)] + [part.svg() for part in self.parts(scene)]
                         + ["</svg>", ""])

    def _group(self, asn: int) -> Part:
        box = self.layout.groups[asn]
        return Part((Rectangle(box.left, box.top, box.width, box.height, Pen(BORDER, self.fills[asn]), 10),),
                    "AS %d" % asn)

    def _group_label(self, asn: int) -> Tuple[Shape, ...]:
        box = self.group_labels[asn]
        return (Text(box.x, box.y + GROUP_SIZE * 0.36, "AS %d" % asn, GROUP_SIZE, PALE, True),)

    def _spot(self, a: str, spot: Spot) -> Part:
        box = self.layout.spots[a]
        if spot.is_virtual:
            pen = Pen(WAY if spot.is_on_way else "#718096", VIRTUAL, 2.5 if spot.is_on_way else 1, "dashed")
        else:
            color, width = (WAY, 2.5) if spot.is_on_way else (INK, 2) if spot.is_exit else ("#4a5568", 1)
            pen = Pen(color, EXIT if spot.is_exit else "#ffffff", width)
        shapes: List[Shape] = [Rectangle(box.left, box.top, box.width, box.height, pen, 0 if spot.is_virtual else 8)]
        y = box.y - _text_height(spot) / 2
        for number, line in enumerate(spot.lines):
            size = HEAD_SIZE if number == 0 else TEXT_SIZE
            y += size + 2
            shapes.append(Text(box.x, y - 2, line, size, PALE if number == 1 and spot.below else INK, number == 0))
        return Part(tuple(shapes), "%s (%s)" % (spot.name, spot.below) if spot.below else spot.name)

    def _line(self, wire: Wire) -> Part:
        """A link or session, with its arrows; one by which something was delivered is drawn over."""
        curve = self.curves[wire.key]
        color, width, dash = wire.color if wire.is_up else DOWN, 1.6, "" if wire.is_up else "dashed"
        if not wire.is_link:
            width, dash = 1.5, "dotted"
        heads = dict(wire.arrows)
        if wire.is_link and heads:
            color, width = WAY if WAY in heads.values() else FORWARDS, 2.6
        if wire.delivered:
            is_withdrawn = all(message.startswith("withdraw") for messages in wire.delivered.values()
                               for message in messages)
            color, width, dash = DELIVERED, 3, "dashed" if is_withdrawn else ""
            heads = dict.fromkeys(wire.delivered, DELIVERED)
        shapes: List[Shape] = [Curve(curve.start, curve.bend, curve.end, Pen(color, "none", width, dash))]
        size = 11 if wire.is_link or wire.delivered else 9
        shapes += [arrow(curve, heads[way], size, way == (wire.one, wire.other)) for way in heads]
        kind, state = "link" if wire.is_link else "session", "" if wire.is_up else ", down"
        return Part(tuple(shapes), "%s of %s and %s%s" % (kind, wire.one, wire.other, state))

    def _plate(self, key: Key, text: str, is_up: bool) -> Part:
        return Part(_plate(self.labels[key], text, PALE if is_up else "#8a8a8a"))

    def _delivered(self, wire: Wire, is_crowded: bool) -> List[Part]:
        """What was delivered, on its session; where that is so on many, only a count where there were several."""
        parts = []
        texts = [told(messages) if not is_crowded else str(len(messages)) for messages in wire.delivered.values()
                 if len(messages) > 1 or not is_crowded]
        for number, text in enumerate(texts):
            box = self.places.over_line(wire.key, width_of(text, LABEL_SIZE, True) + 8, LABEL_SIZE + 5)
            box.move(0, number * box.height)
            parts.append(Part((Rectangle(box.left, box.top, box.width, box.height, Pen(DELIVERED, "#ffffff"), 3),
                               Text(box.x, box.y + LABEL_SIZE * 0.36, text, LABEL_SIZE, DELIVERED, True))))
        return parts

    def _waiting(self, wire: Wire) -> List[Part]:
        """How many messages wait, at their sender's end."""
        parts = []
        for way, count in wire.waiting.items():
            x, y = badge_place(self.curves[wire.key], way == (wire.one, wire.other))
            parts.append(Part((Circle(x, y, 8.5, Pen(WAITING, "#fefcbf", 1.5)),
                               Text(x, y + 4, str(count), LABEL_SIZE, INK, True)),
                              "%d waiting from %s to %s" % (count, *way)))
        return parts

    def _legend_rows(self) -> List[List[str]]:
        """The entries of the legend, as many in a row as fit."""
        rows: List[List[str]] = []
        used = self.width
        for name in self.legend:
            used += _entry_width(name)
            if used > self.width - 2 * MARGIN:
                rows.append([])
                used = _entry_width(name)
            rows[-1].append(name)
        return rows

    def _legend(self) -> List[Part]:
        return [Part(_entry(name, MARGIN + sum(map(_entry_width, row[:at])), self.body_end + 6 + number * ROW))
                for number, row in enumerate(self._legend_rows()) for at, name in enumerate(row)]


def united(scenes: List[Scene]) -> Scene:
    """All that is in any of the scenes. Labels are the longest ones."""
    groups: Dict[int, Dict[str, None]] = {}
    spots: Dict[str, Spot] = {}
    wires: Dict[Key, Wire] = {}
    for scene in scenes:
        spots.update(scene.spots)
        for asn, inside in scene.groups.items():
            groups.setdefault(asn, {}).update(dict.fromkeys(inside))
        wires.update((wire.key, wire) for wire in scene.wires
                     if wire.key not in wires or len(wire.label) > len(wires[wire.key].label))
    return Scene([], {asn: list(inside) for asn, inside in groups.items()}, spots, list(wires.values()))


def sizes_of(scenes: List[Scene]) -> Dict[str, Tuple[float, float]]:
    """The size of each box, enough for all that is ever said in it."""
    found: Dict[str, Tuple[float, float]] = {}
    for a, spot in (each for scene in scenes for each in scene.spots.items()):
        width = max(width_of(line, TEXT_SIZE if at else HEAD_SIZE, at == 0) for at, line in enumerate(spot.lines)) + 14
        known = found.get(a, (44.0, 0.0))
        found[a] = max(known[0], width), max(known[1], _text_height(spot) + 12)
    return found


def _text_height(spot: Spot) -> float:
    return HEAD_SIZE + 2 + (len(spot.lines) - 1) * (TEXT_SIZE + 2)


@functools.lru_cache(maxsize=8192)
def _around(curve: Curve) -> Tuple[float, float, float, float]:
    """The box around a curve: left, right, upper and lower."""
    xs, ys = zip(curve.start, curve.at(0.25), curve.at(0.5), curve.at(0.75), curve.end)
    return min(xs) - 3, max(xs) + 3, min(ys) - 3, max(ys) + 3


def _plate(box: Box, text: str, color: str) -> Tuple[Shape, ...]:
    """A label on a ground of its own, so that the line under it does not cross it."""
    width = width_of(text, LABEL_SIZE) + 5
    return (Rectangle(box.x - width / 2, box.top, width, box.height, Pen("none", "#ffffff"), 3),
            Text(box.x, box.y + LABEL_SIZE * 0.36, text, LABEL_SIZE, color))


def _entry_width(name: str) -> float:
    return SAMPLE + width_of(LEGEND[name], LEGEND_SIZE) + 18


def _entry(name: str, x: float, y: float) -> Tuple[Shape, ...]:
    """An entry of the legend: a sample, and what it means."""
    return (*_sample(name, x, y), Text(x + SAMPLE, y + 4, LEGEND[name], LEGEND_SIZE, PALE, False, False))


def _sample(name: str, x: float, y: float) -> Tuple[Shape, ...]:
    pens = {"link": Pen(LINK, "none", 1.6), "links": Pen(LINK, "none", 1.6), "failed": Pen(DOWN, "none", 1.6, "dashed"),
            "forwards": Pen(FORWARDS, "none", 2.6), "way": Pen(WAY, "none", 2.6),
            "delivered": Pen(DELIVERED, "none", 3)}
    dotted = {"internal": INTERNAL, "external": EXTERNAL, "sessions": EXTERNAL, "down": DOWN, "client": INTERNAL}
    pens.update((each, Pen(color, "none", 1.5, "dotted")) for each, color in dotted.items())
    if name in pens:
        curve = Curve((x, y), (x + 14, y), (x + 28, y), pens[name])
        has_head = name in ("client", "forwards", "way", "delivered")
        return (curve, arrow(curve, pens[name].line, 9)) if has_head else (curve,)
    if name == "waiting":
        return Circle(x + 18, y, 8, Pen(WAITING, "#fefcbf", 1.5)), Text(x + 18, y + 4, "2", LABEL_SIZE, INK, True)
    pen = Pen("#718096", VIRTUAL, 1, "dashed") if name == "virtual" else Pen(INK, EXIT, 2)
    return (Rectangle(x + 4, y - 7, 24, 14, pen, 0 if name == "virtual" else 4),)
