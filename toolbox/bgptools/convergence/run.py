"""A run of the program with what is configured in it: plays scripts, and keeps what was accepted."""
from __future__ import annotations

import copy
import hashlib
from dataclasses import dataclass
from typing import Iterable, List, Optional

from ..network.answers import Answers
from ..network.configuration import Network
from ..network.refusals import Refusal, sentence
from ..program.language import is_silent, words_of
from ..program.line_count import CountedProgram, check_length, is_accepted
from ..program.mistakes import Mistake
from ..program.names import Names
from ..program.replies import refusal
from ..program.script import Line
from .delivery import Deliverer, Convergence
from .orders import Order, RandomOrder, RouterByRouter
from .queues import Queues

# So many random orders are tried where another one does not converge.
RANDOM_ORDERS = 8
# So many prefixes, and so many routers of each, are told of those that keep changing.
PREFIXES, ROUTERS = 8, 10


@dataclass
class Snapshot:
    """What is kept of a run: the program's snapshot of this number, and what the run knew."""
    number: int
    network: Network
    waiting: Queues
    is_unsure: bool
    has_tried_all: bool


class Run(Answers):
    """A program, what it was told, and where messages may wait.

    With `tries_others` a network that does not converge in the order of the run is tried in others. The program is
    another one then. A new program is started where none is given."""

    def __init__(self, order: Optional[Order] = None, most: Optional[int] = None, tries_others: bool = False,
                 program: Optional[CountedProgram] = None) -> None:
        self.network = Network()
        self.program = program or CountedProgram()
        self.order, self.most = order or Order(), most
        self.deliverer = Deliverer(self.program, self.network, self.order, most)
        self.tries_others, self.has_tried_all = tries_others, False

    @property
    def lines(self) -> List[str]:
        """What was accepted, deliveries too, with the comments that name routers."""
        return self.program.accepted

    @lines.setter
    def lines(self, accepted: List[str]) -> None:
        self.program.accepted = accepted

    def say(self, line: str) -> List[str]:
        """The reply to a line. A command that changes something is kept, if it was accepted, and so is a comment that
        names a router."""
        reply = self.program.say(line)
        if is_accepted(reply):
            words = words_of(line)
            self.network.take(words)
            self.deliverer.after(words, reply)
        elif not reply and self.network.names.take(line):
            self.program.keep(line)
        return reply

    def repeat(self, lines: List[str]) -> List[str]:
        """Gives the next lines that another run accepted to this one: the replies to those that have one. Where
        messages may wait is not learned from them: the other run was quiet after them, or nothing is converged here."""
        replies = self.program.give(lines)
        for line in lines:
            if not self.network.names.take(line):
                self.network.take(words_of(line))
        self.deliverer.waiting.knows_all = False
        return replies

    def ask(self, questions: Iterable[str]) -> List[List[str]]:
        """The replies to questions, which change nothing."""
        return self.program.say_all(questions)

    def state(self) -> str:
        """The chosen routes of all routers, as a digest."""
        replies = self.ask("routes " + router for router in self.network.routers())
        return hashlib.sha256("\n".join(line for reply in replies for line in reply).encode("latin-1")).hexdigest()

    def follow(self, order: Order, most: Optional[int], tries_others: bool) -> None:
        """Converges in this order from here on, with at most so many deliveries."""
        self.order, self.most, self.tries_others, self.has_tried_all = order, most, tries_others, False
        self.deliverer.order, self.deliverer.most = order, most

    def converge(self) -> Convergence:
        """Delivers until all queues are empty, or never will be. What the run then has accepted are the deliveries that
        are told."""
        before = len(self.lines)
        done = self.deliverer.converge()
        return self._otherwise(done, self.lines[:before]) if self.tries_others and not done.is_converged else done

    def _otherwise(self, first: Convergence, lines: List[str]) -> Convergence:
        """The same deliveries in other orders, from where they began. The first one that converges takes the place of
        what was tried.

        All are tried once, so as to tell in how many states they end; at a later place only until one converges."""
        found, chosen, states = [], None, set()
        for order in _others(self.order):
            other = self._attempt(order, lines)
            done = other.deliverer.converge()
            found.append(done)
            if done.is_converged:
                states.add(other.state())
            if done.is_converged and chosen is None:
                chosen = other
            else:
                other.close()
            if chosen and self.has_tried_all:
                break
        self.has_tried_all = True
        if chosen is None:
            first.others = found
            return first
        return self._take(chosen, first, found, len(states))

    def _attempt(self, order: Order, lines: List[str]) -> "Run":
        """Another run, of this network, given these lines."""
        most = self.most
        if most is None:
            most = 2000 + 4 * len(self.network.directions()) * len(self.network.prefixes)
        made = Run(order, most)
        made.program.give(lines, self.program.snapshots)
        made.network = self.network
        made.deliverer = Deliverer(made.program, self.network, order, most)
        made.deliverer.waiting.forget_all()
        return made

    def _take(self, other: "Run", first: Convergence, found: List[Convergence], states: int) -> Convergence:
        """Goes on where the other run is, in the order of this one."""
        self.program.close()
        self.program, self.deliverer = other.program, other.deliverer
        self.deliverer.order, self.deliverer.most = self.order, self.most
        done = next(each for each in found if each.is_converged)
        done.first, done.others, done.states = first, found, states
        return done

    def snapshot(self) -> Snapshot:
        """The network as it stands, to be restored later."""
        network, waiting = copy.deepcopy((self.network, self.deliverer.waiting))
        return Snapshot(self.program.snapshot(), network, waiting, self.deliverer.is_unsure, self.has_tried_all)

    def restore(self, kept: Snapshot) -> None:
        """Takes back a network that was kept, with what had been accepted then. It and all after it are forgotten."""
        self.program.restore(kept.number)
        self.network, self.has_tried_all = kept.network, kept.has_tried_all
        self.deliverer = Deliverer(self.program, kept.network, self.order, self.most)
        self.deliverer.waiting, self.deliverer.is_unsure = kept.waiting, kept.is_unsure

    def check(self, line: Line, reply: List[str]) -> None:
        """Raises Refusal, a mistake, where a line was refused, and is not marked so."""
        number = refusal(reply)
        if number and line.expected not in (0, number):
            raise Refusal(line.text, reply[0], sentence(line.text, number, self.network), line.file, line.number)

    def play(self, lines: List[Line]) -> None:
        """Plays a script. A line that is refused, and is not marked so, is a mistake."""
        check_length(len(lines), lines[0].file if lines else None)
        for line in lines:
            self.check(line, self.say(line.text))

    def close(self) -> None:
        self.program.close()

    def __enter__(self) -> "Run":
        return self

    def __exit__(self, *_: object) -> None:
        self.close()


def is_delivery(line: str) -> bool:
    """Whether the line is a `deliver`."""
    return not is_silent(line) and words_of(line)[:1] == ["deliver"]


def _others(order: Order) -> List[Order]:
    """The orders that are tried where this one does not converge."""
    known: List[Order] = [Order(), RouterByRouter()] + [RandomOrder(seed) for seed in range(1, RANDOM_ORDERS + 1)]
    return [each for each in known if each.words != order.words]


def _how(done: Convergence, names: Names) -> str:
    """How one order does not converge."""
    told = ["%s the same state comes back every %d deliveries" % (done.order.words, done.period) if done.period
            else "%s it is not quiet after %d deliveries" % (done.order.words, len(done.deliveries))]
    if _is_long(done):
        told.append("%d prefixes keep changing" % len(done.restless))
    else:
        told += ["%s keeps changing at %s" % (prefix, ", ".join(map(names.shown, routers)))
                 for prefix, routers in done.restless.items()]
    return "; ".join(told)


def _is_long(done: Convergence) -> bool:
    """Whether who keeps changing takes more than one line."""
    return sum(map(len, done.restless.values())) > ROUTERS


def _changing(done: Convergence, names: Names, is_whole: bool) -> str:
    """Who keeps changing, by prefix, where that takes more than one line: all, or the first ones."""
    if not _is_long(done):
        return ""
    lines = []
    for prefix, routers in list(done.restless.items())[:None if is_whole else PREFIXES]:
        shown = ", ".join(map(names.shown, routers if is_whole else routers[:ROUTERS]))
        more = 0 if is_whole else len(routers) - ROUTERS
        lines.append("%s keeps changing at %s%s" % (prefix, shown, " and %d more" % more if more > 0 else ""))
    left = len(done.restless) - len(lines)
    lines += ["and %d prefixes more, which `converge --all` tells" % left] if left else []
    return "".join("\n  " + line for line in lines)


def _tried(others: List[Convergence]) -> str:
    """The orders that were tried, in few words."""
    count = sum(done.order.is_random for done in others)
    fixed = [done.order.words for done in others if not done.order.is_random]
    return ", ".join(fixed + (["%d random" % count] if count else []))


def not_converged(done: Convergence, names: Optional[Names] = None, is_whole: bool = False) -> str:
    """What is told where deliveries do not end: all, or in at most ten lines."""
    known = names or Names()
    told = _how(done, known)
    if done.others:
        told += "; of %d other orders (%s) none converges" % (len(done.others), _tried(done.others))
    if not done.period and not done.restless:
        told += ": --most N allows more"
    return told + _changing(done, known, is_whole)


def converged_otherwise(done: Convergence, names: Optional[Names] = None, is_whole: bool = False) -> str:
    """What is told where another order converged than the first; nothing where the first one did."""
    if done.first is None:
        return ""
    known = names or Names()
    told = _how(done.first, known) + "; it converges " + done.order.words
    quiet = [each for each in done.others if each.is_converged]
    if len(done.others) > 1 or done.states > 1:
        told += "; of %d other orders (%s) %d converge, in %d stable state%s" % (
            len(done.others), _tried(done.others), len(quiet), done.states, "" if done.states == 1 else "s")
    return told + _changing(done.first, known, is_whole)


def told_of(done: Convergence, names: Optional[Names] = None) -> str:
    """What is to be told of deliveries: nothing where they ended in the order that was asked for."""
    return converged_otherwise(done, names) if done.is_converged else not_converged(done, names)
