"""The plots of a study as SVG: the cumulative distribution of captured shares, and the means by tier."""
from __future__ import annotations

from typing import Dict, List, Sequence, Tuple

from ..change.report import count
from .statistics import Share

WIDTH, HEIGHT = 640, 300
LEFT, TOP, RIGHT, BOTTOM = 60, 16, 28, 44
# By packets, by routes: told apart by dashes, too.
STYLES = (("packets", 'stroke="#2b6cb0"'), ("routes", 'stroke="#c53030" stroke-dasharray="6 4"'))
BAR = 34
ACROSS = "captured ASes of all others"


def across(share: float) -> float:
    """Where a share stands from left to right."""
    return LEFT + share * (WIDTH - LEFT - RIGHT)


def _up(part: float) -> float:
    return HEIGHT - BOTTOM - part * (HEIGHT - TOP - BOTTOM)


def _text(x: float, y: float, anchor: str, text: str) -> str:
    return '<text x="%.1f" y="%.1f" text-anchor="%s">%s</text>' % (x, y, anchor, text)


def _line(x: float, y: float, to_x: float, to_y: float, style: str = 'stroke="#cbd5e0"') -> str:
    return '<line x1="%.1f" y1="%.1f" x2="%.1f" y2="%.1f" %s/>' % (x, y, to_x, to_y, style)


def _svg(height: float, label: str, parts: Sequence[str]) -> str:
    head = '<svg viewBox="0 0 %d %d" width="%d" role="img" aria-label="%s">' % (WIDTH, height, WIDTH, label)
    return "\n".join([head, *parts, "</svg>"])


def distribution_plot(steps: Sequence[List[Tuple[float, float]]]) -> str:
    """The cumulative distributions of captured shares, by packets and by routes: for each share which part of the pairs
    captures at most that."""
    parts = []
    for tenth in range(0, 11, 2):
        at = tenth / 10
        parts += [_line(across(at), _up(0), across(at), _up(1)), _line(across(0), _up(at), across(1), _up(at)),
                  _text(across(at), _up(0) + 18, "middle", "%d %%" % (10 * tenth)),
                  _text(across(0) - 8, _up(at) + 4, "end", "%d %%" % (10 * tenth))]
    for number, (found, (name, style)) in enumerate(zip(steps, STYLES)):
        points, last = [(0.0, 0.0)], 0.0
        for share, part in found:
            points += [(share, last), (share, part)]
            last = part
        path = " ".join("%.1f,%.1f" % (across(x), _up(y)) for x, y in points + [(1.0, 1.0)])
        key = _up(0.22 - 0.1 * number)
        parts += ['<polyline points="%s" fill="none" stroke-width="2" %s/>' % (path, style),
                  _line(across(0.72), key, across(0.79), key, 'stroke-width="2" ' + style),
                  _text(across(0.8), key + 4, "start", "by " + name)]
    parts.append(_text(across(0.5), HEIGHT - 6, "middle", ACROSS + "; up: pairs with at most so many"))
    return _svg(HEIGHT, "Cumulative distribution of captured ASes", parts)


def tier_plot(tiers: Dict[str, Share], counts: Dict[str, int]) -> str:
    """A bar for each tier: the mean that attackers of it capture by packets, with its interval."""
    parts, bottom = [], TOP + BAR * len(tiers)
    for tenth in range(0, 11, 2):
        at = across(tenth / 10)
        parts += [_line(at, TOP, at, bottom), _text(at, bottom + 18, "middle", "%d %%" % (10 * tenth))]
    for number, (tier, share) in enumerate(tiers.items()):
        top, middle = TOP + BAR * number + 6, TOP + BAR * (number + 0.5)
        parts += ['<rect x="%.1f" y="%d" width="%.1f" height="%d" fill="#bee3f8"/>' % (
            across(0), top, across(share.mean) - across(0), BAR - 12),
            _line(across(share.low), middle, across(share.high), middle, 'stroke="#1a202c" stroke-width="2"'),
            _text(across(0) - 8, middle + 4, "end", tier),
            _text(across(1), middle + 4, "end", count(counts[tier], "pair"))]
    parts.append(_text(across(0.5), bottom + 38, "middle", ACROSS + ", by packets: mean and 95 % interval"))
    return _svg(bottom + BOTTOM, "Captured ASes by the tier of the attacker", parts)
