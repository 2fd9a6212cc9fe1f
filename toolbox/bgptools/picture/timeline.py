"""A timeline of a router's chosen routes as SVG: a row for each neighbouring AS, and a bar for each time that the
chosen route came from there."""
from __future__ import annotations

from typing import List, NamedTuple
from xml.sax.saxutils import escape

from ..change.timeline import Choice, Timeline
from ..program import times
from ..program.mistakes import Mistake
from .scene import DOWN, EXTERNAL, INTERNAL

# In pixels: where bars begin and how long all are, rows and what is over and under them.
LEFT, LENGTH, ROW, TOP, FOOT, RIGHT = 110, 720, 28, 44, 44, 40
TICKS = 4
NONE, OWN = "no route", "its own"


class Bar(NamedTuple):
    """For how long the chosen route came from one side, in microseconds since 1970."""
    label: str
    begin: int
    end: int


def label_of(choice: Choice) -> str:
    """The row of a choice."""
    if choice.route is None:
        return NONE
    return OWN if choice.route.source == "self" else "AS %d" % choice.next_as if choice.next_as else "a set"


def bars(found: Timeline) -> List[Bar]:
    """The bars in the order of their times, without those of no length; raises Mistake where the script has no time."""
    if found.begin is None or found.end is None:
        raise Mistake("--picture: the script has no comment `# time 2026-12-01T12:00:00Z`, as from-mrt writes them")
    made: List[Bar] = []
    label, begin = NONE, found.begin
    for choice in found.choices:
        time = found.begin if choice.time is None else choice.time
        if label_of(choice) != label:
            made.append(Bar(label, begin, time))
            label, begin = label_of(choice), time
    made.append(Bar(label, begin, found.end))
    return [bar for bar in made if bar.end > bar.begin] or made[-1:]


def _by_label(label: str) -> "tuple[bool, int, str]":
    """Rows are ordered by AS number; others are below."""
    asn = label[3:]
    return not label.startswith("AS "), int(asn) if asn.isdigit() else 0, label


def svg_of(found: Timeline) -> str:
    """The picture; raises Mistake where the script has no time."""
    drawn = bars(found)
    rows = sorted({bar.label for bar in drawn}, key=_by_label)
    begin, length = drawn[0].begin, max(1, drawn[-1].end - drawn[0].begin)
    width, bottom = LEFT + LENGTH + RIGHT, TOP + ROW * len(rows)
    size = width, bottom + FOOT
    parts = ['<svg xmlns="http://www.w3.org/2000/svg" width="%d" height="%d" viewBox="0 0 %d %d" '
             'font-family="Helvetica, Arial, sans-serif" font-size="12">' % (*size, *size),
             '<rect width="100%" height="100%" fill="#ffffff"/>',
             _text(10, 22, "%s at %s: where the chosen route comes from" % (found.prefix, found.router), "start", 14)]
    parts += [_text(LEFT - 8, TOP + ROW * at + 18, label, "end") for at, label in enumerate(rows)]
    for at in range(TICKS + 1):
        x, time = LEFT + LENGTH * at // TICKS, begin + length * at // TICKS
        parts.append('<line x1="%d" y1="%d" x2="%d" y2="%d" stroke="%s"/>' % (x, TOP, x, bottom + 5, DOWN))
        date, _, clock = times.told(time).partition("T")
        parts += [_text(x, bottom + 18, clock.partition(".")[0].rstrip("Z") + "Z", "middle"),
                  _text(x, bottom + 32, date, "middle")]
    for bar in drawn:
        left = LEFT + LENGTH * (bar.begin - begin) / length
        wide = max(1.0, LENGTH * (bar.end - bar.begin) / length)
        parts.append('<rect x="%.2f" y="%d" width="%.2f" height="%d" fill="%s"><title>%s</title></rect>' % (
            left, TOP + ROW * rows.index(bar.label) + 4, wide, ROW - 8, EXTERNAL if bar.label == NONE else INTERNAL,
            escape("%s: %s to %s" % (bar.label, times.told(bar.begin), times.told(bar.end)))))
    return "\n".join(parts + ["</svg>"]) + "\n"


def _text(x: float, y: float, text: str, anchor: str, size: int = 12) -> str:
    return '<text x="%d" y="%d" text-anchor="%s" font-size="%d" fill="#1a202c">%s</text>' % (
        x, y, anchor, size, escape(text))
