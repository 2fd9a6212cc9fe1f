"""The steps of a script: each command with its replies, what is said before it, and what is to be seen after it."""
from __future__ import annotations

import re
from dataclasses import dataclass
from typing import Dict, List, Optional, Tuple

from ..convergence.run import Run, told_of
from ..convergence.transcript import kept_back
from ..network.configuration import Direction
from ..program import communities
from ..program.language import QUESTIONS
from ..program.output import Progress
from ..program.replies import refusal
from ..program.script import MARK, Line
from .observation import Delivered, Known, View, look
from .overview import overview
from .scene import Scene, readable

# So many deliveries are shown where they do not end.
LAST = 20
HEADING = re.compile(r" *# *step +(.*[^ ]) *")


@dataclass
class Step:
    """A command of the script: what is said before it, the heading that it stands under, and the number of its
    picture."""
    says: str
    command: str
    named: str
    replies: List[str]
    refused: bool
    heading: str
    picture: int


def scene_of(run: Run, view: View, way: Optional[Direction], delivered: Delivered, known: Known) -> Scene:
    """What the view shows of the run now: its routers, or its ASes."""
    scene = look(run, view, way, delivered, known)
    return overview(scene) if view.is_of_ases else scene


def _word(line: Line) -> str:
    """The first word of a command; a line of spaces that is too long has none."""
    return (line.words or [""])[0]


class Steps:
    """Plays a script step by step. Lines up to `start` are one step; pictures that are equal are one.

    Where the network does not converge after a line, or converges in another order, `told` says so. Where it does not,
    nothing is delivered after later lines."""

    def __init__(self, run: Run, view: View, does_converge: bool, start: int = 0) -> None:
        self.run, self.view, self.does_converge, self.start = run, view, does_converge, start
        self.steps: List[Step] = []
        self.scenes: List[Scene] = []
        self.says: List[str] = []
        self.heading = ""
        self.folded: List[str] = []
        self.count = 0
        self.told: List[str] = []
        self.is_converged = True
        self.is_passing = False
        self.known = Known()

    def play(self, lines: List[Line]) -> None:
        """Plays all lines."""
        progress = Progress()
        for line in lines:
            if self.steps == [] and line.number > self.start > 0:
                self._start()
            self._line(line)
            progress.tell("%d of %d lines played .." % (line.number, len(lines)))
        progress.done()
        if not self.steps:
            self._start()

    def _line(self, line: Line) -> None:
        if not line.is_command:
            self.run.say(line.text)
            self._comment(line.text)
            return
        reply = self.run.say(line.text)
        if not refusal(reply):
            self.known.after(line.words, self.run.network)
        extra, delivered = self._deliveries(line, reply)
        if line.number <= self.start:
            self.count += 1
            self.folded += ["%d  %s" % (line.number, readable(line.text))] + reply if refusal(reply) else []
            return
        self._step(line, reply, extra, delivered)

    def _comment(self, text: str) -> None:
        """Notes what is said, or a heading; a router's name, and the mark of a refusal, are not said."""
        heading = HEADING.fullmatch(text)
        if heading:
            self.heading = readable(heading.group(1))
        elif text.strip(" ") and not MARK.fullmatch(text) and not self.run.network.names.take(text):
            self.says.append(readable(text.strip(" ").lstrip("#").strip(" ")))

    def _start(self) -> None:
        """The step that all lines before the first one shown are."""
        self._look(self.view.way, {})
        told = "lines 1 to %d: %d commands" % (self.start, self.count) if self.count else "no command yet"
        self.steps.append(Step("", told, "", self.folded, bool(self.folded), "", len(self.scenes) - 1))
        self.says = []

    def _deliveries(self, line: Line, reply: List[str]) -> Tuple[List[str], Delivered]:
        """What is told of the deliveries that follow the line, and all that was delivered with it."""
        taken = [((line.words[1], line.words[2]), reply[0])] if _word(line) == "deliver" and not refusal(reply) else []
        done = self.run.converge() if self.does_converge else None
        after = list(zip(done.deliveries, done.taken)) if done else []
        extra = ["deliver %s %s: %s" % (*way, took) for way, took in after]
        if after:
            self.known.forget()
        if done and told_of(done):
            self.told.append("line %d: %s" % (line.number, told_of(done, self.run.network.names)))
        if done and not done.is_converged:
            self.does_converge = self.is_converged = False
            extra = [".."] * (len(extra) > LAST) + extra[-LAST:] + [told_of(done)]
        delivered: Dict[Direction, List[str]] = {}
        for way, took in taken + after:
            _, to, kind = took.split(" ")
            delivered.setdefault(way, []).append("%s %s" % (kind, to))
        return extra, delivered

    def _step(self, line: Line, reply: List[str], extra: List[str], delivered: Delivered) -> None:
        way = self.view.way
        if _word(line) == "trace" and not refusal(reply):
            way = (line.words[1], line.words[2])
        if _word(line) not in QUESTIONS or way != self.view.way or not self.steps or delivered:
            self._look(way, delivered)
        elif self.is_passing:
            self._look(self.view.way, {})
        self.is_passing = way != self.view.way or bool(delivered)
        names = self.run.network.names.of
        is_named = any(word in names for word in line.words)
        named = readable(" ".join(names.get(word, word) for word in line.words)) if is_named else ""
        command = "%d  %s" % (line.number, readable(line.text))
        replies = list(map(communities.in_text, reply + kept_back(self.run, line.words, reply) + extra))
        self.steps.append(Step("\n".join(self.says), command, named, replies, bool(refusal(reply)), self.heading,
                               len(self.scenes) - 1))
        self.says = []

    def _look(self, way: Optional[Direction], delivered: Delivered) -> None:
        """Adds what is seen now, if that is another picture than the last."""
        seen = scene_of(self.run, self.view, way, delivered, self.known)
        if not self.scenes or self.scenes[-1] != seen:
            self.scenes.append(seen)
        self.is_passing = False
