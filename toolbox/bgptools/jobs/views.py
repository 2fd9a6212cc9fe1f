"""Pictures and tables, in a worker that keeps the script and runs of it."""
from __future__ import annotations

import contextlib
import json
from typing import Any, Dict, List

from ..picture.layout import Box
from ..picture.step_view import Viewer
from ..program.mistakes import Mistake


class Views:
    """What a script's steps look like. The server keeps pictures, so none is kept here."""

    def __init__(self) -> None:
        self.viewer = Viewer()
        self.lines: List[str] = []

    def take_places(self, told: Dict[str, Any]) -> None:
        """Takes over where things stand at another worker, after the lines up to a mark."""
        staying = self.viewer.ground.staying
        staying.places = {name: (x, y) for name, (x, y) in told["places"].items()}
        staying.spots = {name: Box(*box) for name, box in told["spots"].items()}
        staying.loose = set(told["loose"])
        self.viewer.ground.take(self.lines[:told["mark"]])

    def places(self, mark: int) -> Dict[str, Any]:
        """Where things stand after the lines up to a mark, for another worker."""
        staying = self.viewer.ground.staying
        spots = {name: [box.x, box.y, box.width, box.height] for name, box in staying.spots.items()}
        return {"mark": mark, "places": staying.places, "spots": spots, "loose": sorted(staying.loose)}

    def picture(self, job: Dict[str, Any]) -> bytes:
        """A picture as JSON.

        Where things stand depends on which lines came together. So these are told as `marks`, counts of lines: all
        workers place things alike."""
        for mark in job["marks"]:
            with contextlib.suppress(Mistake):
                self.viewer.ground.take(self.lines[:mark])
        way = None if job["way"] is None else (job["way"][0], job["way"][1])
        try:
            return self.viewer.picture(self.lines, job["step"], job["prefix"], way).encode("ascii")
        finally:
            self.viewer.pictures.clear()
            self.viewer.size = 0

    def table(self, job: Dict[str, Any]) -> bytes:
        """A router's routes to a prefix as JSON."""
        found = self.viewer.table(self.lines, job["step"], job["router"], job["prefix"])
        return json.dumps(found, separators=(",", ":")).encode("ascii")
