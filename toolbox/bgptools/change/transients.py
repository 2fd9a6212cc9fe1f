"""What leaves a router while a change is typed: the messages that each line makes it send, and what is told or taken back for a while."""
from __future__ import annotations

from dataclasses import dataclass, field
from typing import Dict, List, Tuple

from ..convergence.run import Run
from ..network.configuration import Direction, Network
from ..program import communities
from ..program.replies import Route, refusal, route, routes
from ..program.script import Line


@dataclass
class Sent:
    """What a line of the change made routers send, by direction."""
    line: Line
    messages: Dict[Direction, List[str]] = field(default_factory=dict)

    @property
    def count(self) -> int:
        return sum(map(len, self.messages.values()))


@dataclass
class Passing:
    """Something that a router told a peer by one line of a change, and took back by a later one."""
    sender: str
    receiver: str
    prefix: str
    kind: str
    line: Line
    until: Line
    message: str


class Watch:
    """Follows the queues while a change is typed into a quiet network."""

    def __init__(self, run: Run) -> None:
        self.run = run
        self.waiting: Dict[Direction, List[str]] = {}
        self.told: Dict[Direction, Dict[str, Route]] = {}
        self.sent: List[Sent] = []

    def say(self, line: Line) -> List[str]:
        """Gives the line to the program, and notes what it made routers send."""
        self._know(line)
        reply = self.run.say(line.text)
        if line.words[:1] == ["deliver"] and not refusal(reply):
            self.waiting.get((line.words[1], line.words[2]), [""]).pop(0)
        if line.is_command and not refusal(reply):
            self.sent.append(self._look(Sent(line)))
        return reply

    def converged(self) -> None:
        """Forgets what waited: all was delivered."""
        self.waiting.clear()

    def _know(self, line: Line) -> None:
        """What the routers that the line is about tell before it, so far as that is not known from before."""
        words = line.words
        if words[:1] not in (["rule"], ["clear"]) or not self.run.network.is_router(words[1]):
            return
        ways = [way for way in self.run.network.directions({words[1]}) if way not in self.told]
        for way, reply in zip(ways, self.run.ask("out %s %s" % way for way in ways)):
            self.told[way] = routes(reply)

    def _look(self, found: Sent) -> Sent:
        ways = sorted(self.run.deliverer.suspects)
        for way, reply in zip(ways, self.run.ask("queue %s %s" % way for way in ways)):
            before, now = self.waiting.get(way, []), reply[:-1]
            new = now[len(before):] if now[:len(before)] == before else now
            if new and found.line.words[0] != "feed":
                found.messages[way] = new
            self.waiting[way] = now
        return found

    def passing(self) -> List[Passing]:
        """What policies let out, or made routers take back, for a while: a later line of the change made that good."""
        by_cell: Dict[Tuple[Direction, str], List[Tuple[Line, str]]] = {}
        for sent in self.sent:
            for way, messages in sent.messages.items():
                for message in messages:
                    by_cell.setdefault((way, message.split(" ")[1]), []).append((sent.line, message))
        found = []
        for (way, prefix), history in by_cell.items():
            for (line, message), (until, _) in zip(history, history[1:]):
                if line.words[0] in ("rule", "clear") and until is not line:
                    kind = self._kind(way, prefix, message)
                    found.append(Passing(way[0], way[1], prefix, kind, line, until, message))
        return found

    def _kind(self, way: Direction, prefix: str, message: str) -> str:
        """What this message does, beside what was told before the change."""
        if message.startswith("withdraw "):
            return "taken back"
        return "leaked" if prefix not in self.told.get(way, {}) else "told otherwise"


def message_text(message: str) -> str:
    """A message of a queue in few words."""
    word, rest = message.split(" ", 1)
    if word == "withdraw":
        return message
    told = route(rest).attributes
    comms = " comms " + communities.told(told.communities) if told.communities else ""
    return "update %s path %s%s" % (route(rest).prefix, told.path, comms)


def advice(passing: List[Passing], network: Network) -> List[str]:
    """How to avoid that something passes: for each policy that was changed."""
    told, names = [], network.names
    for one, other in dict.fromkeys((each.line.words[1], each.line.words[2]) for each in passing):
        again = "" if network.is_router(other) else "; then feed what %s tells again" % names.shown(other)
        told.append("`stop %s %s` before the first line of the policy and `start %s %s` after the last, so that nothing passes in between%s"
                    % (one, other, one, other, again))
    return told
