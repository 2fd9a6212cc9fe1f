"""One HTML page with a picture for each step of a script, its command and its replies, to click through in a
lecture."""
from __future__ import annotations

import html
import json
import pkgutil
from dataclasses import asdict
from typing import Dict, List

from .renderer import BESIDE_WORDS, Drawing
from .scene import Scene
from .shapes import svg_head
from .steps import Step


def page_of(title: str, steps: List[Step], scenes: List[Scene]) -> str:
    """The page. What pictures have in common is in it once: a picture is a list of numbers of parts."""
    drawing = Drawing(scenes, BESIDE_WORDS)
    parts: Dict[str, int] = {}
    pictures = [[parts.setdefault(part.svg(), len(parts)) for part in drawing.parts(scene)] for scene in scenes]
    frame = (pkgutil.get_data("bgptools.picture", "page.html") or b"").decode("utf-8")
    values = {"TITLE": html.escape(title), "HEAD": _inside(svg_head(drawing.width, drawing.height)),
              "PARTS": _inside(list(parts)), "PICTURES": _inside(pictures),
              "STEPS": _inside([asdict(step) for step in steps])}
    pieces = frame.split("%%")
    return "".join(values[piece] if number % 2 else piece for number, piece in enumerate(pieces))


def _inside(value: object) -> str:
    """A value as JSON that can stand inside a script element."""
    return json.dumps(value, separators=(",", ":")).replace("<", "\\u003c")
