"""What a worker process does: it reads frames with lines of scripts and jobs, and answers each job."""
from __future__ import annotations

import json
import os
import queue
import threading
import traceback
from typing import Any, BinaryIO, Dict, List, Optional, Tuple

from ..program.mistakes import Mistake
from ..program.process import Program
from . import confinement
from .frames import ANSWER, END, HEAD, JOB, LAST, LINES, MISTAKE, PLACES, head_of, json_out, lines_in, read_head
from .watch import Watch

# A frame to a worker has at most so many lines, each of at most 64 KB.
LARGEST = 1 << 30


class Executor:
    """A worker: what it is given and tells, its limits, and the lines that it has.

    It ends with all that it started when what it is given ends, also while it works: then the server has ended."""

    def __init__(self, given: BinaryIO, told: BinaryIO) -> None:
        self.given, self.told = given, told
        self.lock = threading.Lock()
        self.frames: "queue.SimpleQueue[Tuple[int, bytes]]" = queue.SimpleQueue()
        threading.Thread(target=self._read, daemon=True).start()
        self.limits: Dict[str, int] = json.loads(self.frames.get()[1])
        Program.beginning = self.beginning = confinement.confine(self.limits)
        os.nice(self.limits["niceness"])
        self.watch = Watch(self.limits, lambda why: self._tell(END, why.encode()))
        # The lines that it has, and those that came since the last job; where things stand at another worker.
        self.lines: List[str] = []
        self.came: List[str] = []
        self.places: Optional[Dict[str, Any]] = None
        self.views: Optional[Any] = None

    def run(self) -> None:
        """Works until the server ends it, or has ended."""
        while True:
            kind, content = self.frames.get()
            if kind == LINES:
                self.came += lines_in(content)
            elif kind == PLACES:
                self.places = json.loads(content)
            elif kind == JOB:
                self._serve(json.loads(content))

    def _read(self) -> None:
        try:
            while True:
                kind, size = read_head(self._exactly(HEAD.size), LARGEST)
                self.frames.put((kind, self._exactly(size)))
        finally:
            # There is no more, or it cannot be read.
            confinement.end_all()

    def _exactly(self, size: int) -> bytes:
        content = self.given.read(size)
        if len(content) < size:
            raise EOFError
        return content

    def _tell(self, kind: int, content: bytes) -> None:
        with self.lock:
            self.told.write(head_of(kind, content) + content)
            self.told.flush()

    def _serve(self, job: Dict[str, Any]) -> None:
        """Answers a job. Where anything but a mistake comes of it, the worker ends: it may hold half of something."""
        try:
            confinement.allow(self.limits)
            self.watch.begin()
            kind, content = self._answer(job)
        except MemoryError:
            kind, content = END, b"it has no memory left"
        except Exception as fault:  # pylint: disable=broad-except
            traceback.print_exc()
            kind, content = END, ("an error in it, %s: %s" % (type(fault).__name__, fault)).encode("utf-8", "replace")
        if kind == ANSWER and self.watch.is_large():
            kind = LAST
        self.watch.end()
        self._tell(kind, content)
        if kind in (END, LAST):
            confinement.end_all()

    def _answer(self, job: Dict[str, Any]) -> Tuple[int, bytes]:
        try:
            content = self._do(job)
        except Mistake as mistake:
            return MISTAKE, str(mistake).encode("utf-8", "backslashreplace")
        if len(content) > self.limits["answer"]:
            told = "the answer has %d bytes, and at most %d are taken" % (len(content), self.limits["answer"])
            return MISTAKE, told.encode()
        return ANSWER, content

    def _do(self, job: Dict[str, Any]) -> bytes:
        """Does what a job says. What one kind needs is loaded for it alone."""
        # Another list each time: what looks at the lines keeps the one that it was given.
        self.lines, self.came = self.lines + self.came, []
        if job["do"] == "check":
            from .checks import verdict
            return verdict(job["log"], job["size"], job["end"].encode("latin-1"), self.beginning)
        if job["do"] == "what_if":
            from .changes import what_if
            return what_if(self.lines, job["change"])
        return self._view(job)

    def _view(self, job: Dict[str, Any]) -> bytes:
        """A picture or a table."""
        if self.views is None:
            from .views import Views
            self.views = Views()
        self.views.lines = self.lines
        if job["do"] == "table":
            table: bytes = self.views.table(job)
            return table
        if self.places is not None:
            places, self.places = self.places, None
            self.views.take_places(places)
        picture: bytes = self.views.picture(job)
        if job["marks"]:
            self._tell(PLACES, json_out(self.views.places(job["marks"][-1])))
        return picture


def main() -> None:
    """A worker at its standard streams. What else is printed goes to standard error."""
    given, told = os.fdopen(os.dup(0), "rb"), os.fdopen(os.dup(1), "wb")
    nothing = os.open(os.devnull, os.O_RDONLY)
    os.dup2(nothing, 0)
    os.close(nothing)
    os.dup2(2, 1)
    Executor(given, told).run()
