"""Deliveries until all queues are empty, in one order or another."""
from __future__ import annotations

from collections import Counter
from dataclasses import dataclass, field
from typing import Dict, List, Optional

from ..network.configuration import Direction, Network
from ..program.language import NUMBERS
from ..program.line_count import CountedProgram
from ..program.mistakes import Mistake
from ..program.output import Progress
from ..program.replies import refusal
from .orders import Order, in_order
from .queues import ANY, Cell, Queues
from .recurrence import examine

MEMORY = NUMBERS["memory"]


@dataclass
class Convergence:
    """What was delivered, in which order; and, where it did not end, who keeps choosing anew: prefixes, each with its routers.

    `period` is how many deliveries bring the same state back, where that was seen. `others` are the orders that were tried where the
    first one did not converge, and `first` is that one, where another took its place. `states` is in how many states they ended."""
    order: Order
    deliveries: List[Direction] = field(default_factory=list)
    taken: List[str] = field(default_factory=list)
    is_converged: bool = True
    restless: Dict[str, List[str]] = field(default_factory=dict)
    period: int = 0
    first: Optional["Convergence"] = None
    others: List["Convergence"] = field(default_factory=list)
    states: int = 0


class Deliverer:
    """Delivers what waits in a program's network."""

    def __init__(self, program: CountedProgram, network: Network, order: Order, most: Optional[int] = None) -> None:
        self.program, self.network, self.order, self.most = program, network, order, most
        self.waiting = Queues(network)
        self.progress = Progress()
        self.is_unsure = False

    @property
    def suspects(self) -> List[Direction]:
        """Where messages may wait."""
        return in_order(self.waiting.most)

    def after(self, words: List[str], reply: List[str]) -> None:
        """Notes what an accepted command may have put into queues."""
        self.waiting.after(words, reply)

    def limit(self) -> int:
        """How many deliveries are made at most."""
        if self.most is not None:
            return self.most
        return 10000 + 20 * len(self.network.directions()) * len(self.network.prefixes)

    def converge(self) -> Convergence:
        """Delivers until no message waits, or until the limit. Where that is reached, it is examined why."""
        done, limit, self.progress = Convergence(self.order), self.limit(), Progress()
        if self.waiting.most or self.is_unsure:
            self._converge(limit, done)
        self.progress.done()
        return done

    def _converge(self, room: int, done: Convergence) -> None:
        """Has the program deliver, at most so many messages."""
        found = self.program.converge(self.order.asked, room,
                                      lambda count: self.progress.tell("%d deliveries .." % count))
        if not found.is_converged and not found.is_refused:
            done.is_converged = False
            why = examine(self.program, self.network, found.commands, found.replies)
            done.period, done.restless = why.period, why.restless
            del found.commands[why.count:], found.replies[why.count:]
        ways = {command: _way(command) for command in set(found.commands)}
        done.deliveries += [ways[command] for command in found.commands]
        done.taken += found.replies
        if found.is_converged:
            cells = {(way[1], reply) for way, reply in zip(done.deliveries, done.taken)}
            self.waiting.converged((router, reply.split(" ")[1]) for router, reply in cells)
        else:
            self.waiting.forget_all()
        self.is_unsure = not found.is_converged
        if found.is_refused:
            raise Mistake("converge: %s: memory was refused after %d deliveries" % (found.ending, len(done.deliveries)))

    def is_waiting(self) -> bool:
        """Whether a message waits anywhere. The program is asked where many may, and at the end."""
        most = self.waiting.most
        if most and sum(count == ANY for count in most.values()) < 3:
            return True
        if not most and not self.is_unsure:
            return False
        self.is_unsure = self.program.say("quiet") != ["yes"]
        if not self.is_unsure:
            most.clear()
        elif not most:
            self.waiting.forget_all()
        return self.is_unsure

    def learn(self, cells: "Counter[Cell]") -> None:
        """Asks routers that took so many messages about prefixes what they chose. Only a router that may send is asked."""
        asked = [cell for cell in cells if self.waiting.matters(cell)]
        for cell in cells.keys() - asked:
            self.waiting.unsure(cell, cells[cell])
        for cell, reply in zip(asked, self.program.say_all("best %s %s" % cell for cell in asked)):
            self.waiting.learn(cell, cells[cell], reply[0])


def _way(command: str) -> Direction:
    """The direction of a `deliver`."""
    _, one, other = command.split(" ")
    return one, other
