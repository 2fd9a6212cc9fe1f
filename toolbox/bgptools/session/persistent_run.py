"""The run of a shared network, which lasts: where its process ends, another one is given what was accepted."""
from __future__ import annotations

import contextlib
import time
from typing import Callable, Iterable, Iterator, List, Optional, Sequence

from ..convergence.delivery import Deliverer
from ..convergence.orders import Order
from ..convergence.run import Run
from ..network.configuration import Direction, Network
from ..program import line_count
from ..program.language import QUESTIONS, readable, words_of
from ..program.line_count import CountedProgram
from ..program.mistakes import Mistake
from ..program.process import ProgramEnded, one_line
from .events import Events
from .log import Entry

# So many lines are given to the program at once.
AT_ONCE = 512
# The part of the lines of one run that is for changes: the rest is for questions.
FULL = 0.99
# Where the program cannot be run, it is tried again after so many seconds, and after twice as many each time.
SHORTEST_PAUSE, LONGEST_PAUSE = 0.1, 5.0


class Lost(Mistake):
    """The program ended before it had answered, or cannot be run now. The network is as it was before."""


class Absent(CountedProgram):
    """What was accepted, where there is no process. Whatever is said to it raises ProgramEnded."""

    def __init__(self, accepted: List[str], why: str) -> None:  # pylint: disable=super-init-not-called
        self.accepted, self.why = accepted, why
        self.snapshots = []
        self.count = self.count_of_all = 0
        self.is_near = self.is_torn = False

    def say_all(self, lines: Iterable[str]) -> List[List[str]]:
        raise ProgramEnded(self.why)

    def give(self, lines: List[str], snapshots: Sequence[int] = ()) -> List[str]:
        raise ProgramEnded(self.why)

    def pour(self, lines: Iterable[str]) -> List[str]:
        raise ProgramEnded(self.why)

    def close(self) -> None:
        """There is nothing to be closed."""


class PersistentRun:
    """The run of a shared network. `renewed` is called when what waits is not known any more.

    `absent` says why there is no process at first: one is started when something is asked, and by `revive`. `clock`
    goes on evenly, in seconds; by it tries are apart."""

    def __init__(self, most: Optional[int], happening: Events, absent: str = "",
                 clock: Callable[[], float] = time.monotonic) -> None:
        self.most, self.happening, self.clock = most, happening, clock
        self.renewed: Callable[[], None] = lambda: None
        self.run = Run(most=most, program=Absent([], absent) if absent else None)
        self.pause, self.again_at, self.why = 0.0, 0.0, ""

    @property
    def network(self) -> Network:
        """What is configured."""
        return self.run.network

    @property
    def lines(self) -> List[str]:
        """What was accepted, with the comments that name routers."""
        return self.run.lines

    @property
    def deliverer(self) -> Deliverer:
        """Where messages may wait."""
        return self.run.deliverer

    @property
    def is_full(self) -> bool:
        """Whether nothing can be changed any more, since one run of the program would not read it."""
        return len(self.run.lines) >= FULL * line_count.MOST_LINES

    # What it is asked

    def asked(self, lines: List[str]) -> List[List[str]]:
        """The replies to lines. Raises Lost where the program ended; then nothing of them is done. Mistake where one
        is no line of a script: then the program is given none."""
        given = list(map(one_line, lines))
        if not given:
            return []
        with self.renewing():
            replies = self.run.program.say_all(given)
        return replies

    def ask(self, questions: List[str]) -> List[List[str]]:
        """The replies to questions of a tool, which have no entry in the log. Mistake where one is no question."""
        for line in map(one_line, questions):
            if words_of(line)[:1] == [] or words_of(line)[0] not in QUESTIONS:
                raise Mistake("`%s` is no question" % readable(line[:80]))
        return self.asked(questions)

    def waiting(self, most: int = 100) -> List[Direction]:
        """Where messages wait, in order; of many the first."""
        found: List[Direction] = []
        ways = self.deliverer.suspects
        while ways and len(found) < most:
            part, ways = ways[:AT_ONCE], ways[AT_ONCE:]
            replies = self.asked(["queue %s %s" % way for way in part])
            found += [way for way, reply in zip(part, replies) if len(reply) > 1]
        return found[:most]

    def is_quiet(self) -> bool:
        """Whether all queues are empty."""
        return self.asked(["quiet"]) == [["yes"]]

    # What it has accepted

    def take(self, entry: Entry) -> None:
        """Notes what a change configured, and what it may have put into queues."""
        words = words_of(entry.line)
        self.network.take(words)
        self.deliverer.after(words, entry.reply)
        self.deliverer.is_unsure = True

    def name(self, line: str) -> bool:
        """A comment, which may name a router; whether it does."""
        is_name = self.network.names.take(line)
        if is_name:
            self.run.program.keep(line)
        return is_name

    # Where it ends

    @contextlib.contextmanager
    def renewing(self) -> Iterator[None]:
        """While the program is asked. Where it ends, it is run anew with what was accepted before, and Lost raised.
        Where it cannot be run, Lost says why, and the next request tries again, but not within a pause."""
        if self.run.program.is_torn:
            self._lose(len(self.run.lines), "a reply of the program was not read")
        self.revive()
        before = len(self.run.lines)
        try:
            yield
        except ProgramEnded as ended:
            self._lose(before, str(ended))
            try:
                self.revive()
            except Lost as lost:
                raise Lost("%s; this was not done" % lost) from None
            raise Lost("%s; it is run anew, and this was not done" % ended) from None

    def revive(self) -> None:
        """Starts the program where there is none, with what was accepted. Raises Lost where it cannot be run, or could
        not a moment ago."""
        absent = self.run.program
        if not isinstance(absent, Absent):
            return
        now = self.clock()
        if now >= self.again_at:
            try:
                made = _given(absent.accepted)
            except Exception as fault:  # pylint: disable=broad-except
                self.pause = min(LONGEST_PAUSE, 2 * self.pause or SHORTEST_PAUSE)
                self.again_at, self.why = self.clock() + self.pause, described(fault)
            else:
                self._use(made)
                self.pause = self.again_at = 0.0
                self.happening.tell("told", "%s; it is run anew with what stands in the log" % absent.why)
                return
        raise Lost("%s; and it cannot be run anew: %s; the next request tries again" % (absent.why, self.why))

    def _lose(self, count: int, why: str) -> None:
        """There is no program any more: what it had accepted up to there stays."""
        old, network = self.run.program, self.run.network
        absent = Absent(old.accepted[:count], why)
        _end(old)
        self.run = Run(most=self.most, program=absent)
        self.run.network = network
        self.run.deliverer = Deliverer(absent, network, Order(), self.most)
        self.run.deliverer.waiting.forget_all()
        self.run.deliverer.is_unsure = True
        self.renewed()

    def _use(self, program: CountedProgram) -> None:
        self.run.program = self.run.deliverer.program = program

    def drop(self, why: str) -> None:
        """Lets go of the program and of all that it has accepted."""
        _end(self.run.program)
        self.run = Run(most=self.most, program=Absent([], why))

    def close(self) -> None:
        """Ends the program."""
        _end(self.run.program)


def _given(lines: List[str]) -> CountedProgram:
    """A program that was given these lines, which another one accepted. Mistake where it does not accept them."""
    made = CountedProgram()
    try:
        made.give(lines)
    except BaseException:
        _end(made)
        raise
    return made


def _end(program: CountedProgram) -> None:
    """Ends a program, whatever state it is in."""
    program.is_torn = True
    with contextlib.suppress(OSError):
        program.close()


def described(error: BaseException) -> str:
    """An error in few words: what it says, and its kind where it is no Mistake."""
    told = ""
    # What an error says is made by it, and may run out of memory again.
    with contextlib.suppress(Exception):
        told = str(error)
    if isinstance(error, Mistake):
        return told
    return type(error).__name__ + (told and ": " + told[:200])
