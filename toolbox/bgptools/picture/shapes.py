"""The shapes that pictures are made of, each as SVG and as the drawing operations of Graphviz (xdot), by which it
makes the same PNG and PDF."""
from __future__ import annotations

import functools
import html
import math
from dataclasses import dataclass
from typing import List, Tuple

from .scene import INK

Point = Tuple[float, float]
FONT = "Helvetica, Arial, sans-serif"
NARROW, BROAD = " .,:;/'|!()[]{}-ijltfrI", "mwMW@%"
DASHES = {"dashed": "6 4", "dotted": "1.5 3.5"}


@functools.lru_cache(maxsize=65536)
def width_of(text: str, size: float, is_bold: bool = False) -> float:
    """About how broad a text is."""
    ems = sum(0.33 if c in NARROW else 0.86 if c in BROAD else 0.69 if c.isupper() else 0.56 for c in text)
    return ems * size * (1.06 if is_bold else 1)


@functools.lru_cache(maxsize=65536)
def _number(value: float) -> str:
    return ("%.1f" % value).rstrip("0").rstrip(".").replace("-0", "0" if abs(value) < 0.05 else "-0")


def _numbers(*values: float) -> str:
    return " ".join(map(_number, values))


@dataclass(frozen=True)
class Pen:
    """How a shape is drawn: the color of its line, its filling, how thick, and `dashed` or `dotted`."""
    line: str = "none"
    filling: str = "none"
    width: float = 1
    dash: str = ""

    def svg(self) -> str:
        words = ['fill="%s"' % self.filling]
        if self.line != "none":
            words += ['stroke="%s"' % self.line, 'stroke-width="%s"' % _number(self.width)]
        if self.dash:
            ends = ' stroke-linecap="round"' if self.dash == "dotted" else ""
            words.append('stroke-dasharray="%s"%s' % (DASHES[self.dash], ends))
        return " ".join(words)

    def xdot(self) -> str:
        style = "setlinewidth(%s)" % _number(self.width)
        told = ["c %s" % _counted(self.line if self.line != "none" else "transparent"), "S %s" % _counted(style),
                "S %s" % _counted(self.dash or "solid")]
        return " ".join(told + (["C %s" % _counted(self.filling)] if self.filling != "none" else []))


def _counted(text: str) -> str:
    """A text as xdot has it, after the number of its bytes."""
    return "%d -%s" % (len(text.encode("utf-8")), text)


class Shape:
    """Something that is drawn. `xdot` counts y upwards from the picture's lower end."""

    def svg(self) -> str:
        raise NotImplementedError

    def xdot(self, height: float) -> str:
        raise NotImplementedError


@dataclass(frozen=True)
class Polygon(Shape):
    """A filled polygon."""
    points: Tuple[Point, ...]
    pen: Pen

    def svg(self) -> str:
        return '<polygon points="%s" %s/>' % (" ".join("%s,%s" % (_number(x), _number(y)) for x, y in self.points),
                                              self.pen.svg())

    def xdot(self, height: float) -> str:
        points = _numbers(*(value for x, y in self.points for value in (x, height - y)))
        return "%s %s %d %s" % (self.pen.xdot(), "p" if self.pen.filling == "none" else "P", len(self.points), points)


@dataclass(frozen=True)
class Rectangle(Shape):
    """A rectangle by its upper left corner, with round corners."""
    left: float
    top: float
    width: float
    height: float
    pen: Pen
    radius: float = 0

    def svg(self) -> str:
        round_ = ' rx="%s"' % _number(self.radius) if self.radius else ""
        return '<rect x="%s" y="%s" width="%s" height="%s"%s %s/>' % (
            *map(_number, (self.left, self.top, self.width, self.height)), round_, self.pen.svg())

    def xdot(self, height: float) -> str:
        return Polygon(tuple(self._outline()), self.pen).xdot(height)

    def _outline(self) -> List[Point]:
        """The corners, each a quarter of a circle in five points."""
        reach, points = self.radius, []
        for number in range(20):
            corner, angle = number // 5, math.pi / 2 * (number // 5 + number % 5 / 4)
            x = self.left + (self.width - reach if corner in (0, 3) else reach)
            y = self.top + (self.height - reach if corner in (0, 1) else reach)
            points.append((x + reach * math.cos(angle), y + reach * math.sin(angle)))
        return points


@dataclass(frozen=True)
class Circle(Shape):
    """A circle by its middle."""
    x: float
    y: float
    radius: float
    pen: Pen

    def svg(self) -> str:
        return '<circle cx="%s" cy="%s" r="%s" %s/>' % (*map(_number, (self.x, self.y, self.radius)), self.pen.svg())

    def xdot(self, height: float) -> str:
        return "%s E %s" % (self.pen.xdot(), _numbers(self.x, height - self.y, self.radius, self.radius))


@dataclass(frozen=True)
class Curve(Shape):
    """A line between two points that may be bent towards a third."""
    start: Point
    bend: Point
    end: Point
    pen: Pen = Pen()

    def at(self, part: float) -> Point:
        """The point at a part of it, 0 to 1."""
        rest = 1 - part
        (ax, ay), (bx, by), (cx, cy) = self.start, self.bend, self.end
        one, two, three = rest * rest, 2 * rest * part, part * part
        return one * ax + two * bx + three * cx, one * ay + two * by + three * cy

    def between(self, low: float, high: float) -> "Curve":
        """A piece of it."""
        start, end = self.at(low), self.at(high)
        points = zip(self.start, self.bend, self.end)
        x, y = ((1 - low) * ((1 - high) * a + high * b) + low * ((1 - high) * b + high * c) for a, b, c in points)
        return Curve(start, (x, y), end, self.pen)

    def moved(self, x: float, y: float) -> "Curve":
        """The same elsewhere."""
        start, bend, end = ((a + x, b + y) for a, b in (self.start, self.bend, self.end))
        return Curve(start, bend, end, self.pen)

    @property
    def length(self) -> float:
        """About how long it is."""
        return math.dist(self.start, self.at(0.5)) + math.dist(self.at(0.5), self.end)

    def svg(self) -> str:
        return '<path d="M%s Q%s %s" %s/>' % (_numbers(*self.start), _numbers(*self.bend), _numbers(*self.end),
                                              self.pen.svg())

    def xdot(self, height: float) -> str:
        first, second = (tuple((a + 2 * b) / 3 for a, b in zip(tip, self.bend)) for tip in (self.start, self.end))
        points = (self.start, first, second, self.end)
        return "%s B 4 %s" % (self.pen.xdot(), _numbers(*(value for x, y in points for value in (x, height - y))))


def arrow(curve: Curve, color: str, size: float, is_at_end: bool = True) -> Polygon:
    """The head of an arrow at an end of a curve."""
    (x, y), (bx, by) = (curve.end if is_at_end else curve.start), curve.bend
    length = math.hypot(x - bx, y - by) or 1
    dx, dy = (x - bx) / length * size, (y - by) / length * size
    return Polygon(((x, y), (x - dx - dy * 0.45, y - dy + dx * 0.45), (x - dx + dy * 0.45, y - dy - dx * 0.45)),
                   Pen(color, color, 0.5))


@dataclass(frozen=True)
class Text(Shape):
    """A line of text by its baseline, from `x` on or around it."""
    x: float
    y: float
    text: str
    size: float
    color: str = INK
    is_bold: bool = False
    is_middle: bool = True

    def svg(self) -> str:
        words = 'x="%s" y="%s" font-size="%s"' % tuple(map(_number, (self.x, self.y, self.size)))
        words += ' fill="%s"' % self.color if self.color != INK else ""
        words += ' font-weight="bold"' if self.is_bold else ""
        return "<text %s%s>%s</text>" % (words, "" if self.is_middle else ' text-anchor="start"',
                                         html.escape(self.text))

    def xdot(self, height: float) -> str:
        width = width_of(self.text, self.size, self.is_bold)
        return "c %s t %d F %s %s T %s %d %s %s" % (
            _counted(self.color), self.is_bold, _number(self.size), _counted("Arial"),
            _numbers(self.x, height - self.y), 0 if self.is_middle else -1, _number(width), _counted(self.text))


@dataclass(frozen=True)
class Part:
    """Shapes that belong together, with the name that a browser shows over them."""
    shapes: Tuple[Shape, ...]
    name: str = ""

    def svg(self) -> str:
        return self._svg

    @functools.cached_property
    def _svg(self) -> str:
        inside = "".join(shape.svg() for shape in self.shapes)
        return "<g><title>%s</title>%s</g>" % (html.escape(self.name), inside) if self.name else inside


def svg_head(width: float, height: float) -> str:
    """The begin of an SVG picture."""
    size = tuple(map(_number, (width, height)))
    return ('<svg xmlns="http://www.w3.org/2000/svg" width="%s" height="%s" viewBox="0 0 %s %s" font-family="%s" '
            'text-anchor="middle" fill="%s">' % (*size, *size, FONT, INK))


def dot_picture(parts: List[Part], width: float, height: float) -> str:
    """A graph that shows the parts as they are, drawn behind two points in its corners. To be made by `neato -n2`.

    Each shape is a string of its own, joined by `+`, for Graphviz reads no string of more than 16,384 bytes."""
    drawn = [shape.xdot(height) + " " for part in parts for shape in part.shapes]
    strings = " + ".join('"%s"' % each.replace("\\", "\\\\").replace('"', '\\"') for each in drawn)
    corner = 'pos="%s,%s!", shape=point, style=invis, width=0.01'
    size = (_number(width), _number(height))
    return 'graph picture {\n  graph [pad=0, bb="0,0,%s,%s", _background=%s]\n  a [%s]\n  b [%s]\n}\n' % (
        *size, strings or '""', corner % ("0", "0"), corner % size)
