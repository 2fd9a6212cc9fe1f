"""The event loop of a shared network: who is joined, whose turn it is, and what everybody is told.

One request is served at a time, that of the person whose requests took least of late. What goes wrong in one request
ends that request. The server ends by a signal, or by a fault of its log or of a socket, and by nothing else."""
from __future__ import annotations

import asyncio
import contextlib
import logging
import signal
import socket
import time
from collections import Counter, deque
from typing import Any, Awaitable, Callable, Deque, List, Optional, Set, Tuple, Union

from ..jobs import Pool
from ..program.mistakes import Mistake
from .answers import Answer, RequestAnswers
from .events import Event
from .faults import Faults, described
from .log import Unkept
from .member import Member
from .messages import MISSED, UNANSWERED, encoded, shown
from .persistent_run import Lost
from .requests import Malformed, request_in
from .shared_network import Shared
from .sockets import SocketMember

# Requests are served for so many seconds before the loop looks for new ones.
SLICE = 0.02
# After a fault of a turn the next one is due so many seconds later.
REST = 0.1
# Where the program could not be run anew, it is tried again after so many seconds.
AGAIN = 1.0
# What is to be sent at the end has so many seconds.
FAREWELL = 0.1
# So often the system wakes the server, whatever went wrong in a turn, in seconds.
BEAT = 1.0
UNKNOWN = "look at the network before you ask again"
LOST = "a request could not be answered, for a fault of the server: " + UNKNOWN


class Hub:
    """All who are joined, and what they share."""

    def __init__(self, shared: Shared) -> None:
        self.shared, self.faults = shared, Faults()
        self.members: List[Member] = []
        self.pool = Pool(lambda: self.shared.run.lines)
        self.answering = RequestAnswers(shared, self.pool, self._quiet)
        # Others than the members who hear what happens, and what else is done about every second.
        self.hearers: List[Callable[[Event], None]] = []
        self.beaten: List[Callable[[], None]] = [self._count_here, self._drop_hidden, self.pool.pump]
        self.answers: Deque[Tuple[Member, bytes]] = deque()
        self.tasks: "Set[asyncio.Task[None]]" = set()
        self.waiting: "List[asyncio.Future[Answer]]" = []
        self.is_awake = self.is_closing = self.is_spreading = False
        self.timer: Optional[asyncio.TimerHandle] = None
        self.ending: "Optional[asyncio.Future[int]]" = None

    async def serve(self, at: socket.socket, ready: Callable[[], Awaitable[None]]) -> int:
        """Serves at this socket until a signal comes: its number. Says when it is ready for both. Raises the fault that
        ended it."""
        loop = asyncio.get_running_loop()
        loop.set_exception_handler(self.faults.of_loop)
        # The handler tells all. What a logger cannot write would end the loop.
        logger = logging.getLogger("asyncio")
        logger.addHandler(logging.NullHandler())
        logger.propagate = False
        self.ending = loop.create_future()
        for number in (signal.SIGINT, signal.SIGTERM, signal.SIGHUP):
            if number == signal.SIGINT or signal.getsignal(number) != signal.SIG_IGN:
                loop.add_signal_handler(number, self.end, number)
        server = await loop.create_unix_server(self._member, sock=at)
        try:
            loop.add_signal_handler(signal.SIGALRM, self._beat)
            signal.setitimer(signal.ITIMER_REAL, BEAT, BEAT)
            await ready()
            self.wake()
            return await self.ending
        finally:
            signal.setitimer(signal.ITIMER_REAL, 0)
            await self._close(server)

    def end(self, how: Union[int, BaseException]) -> None:
        """Ends the server, by a signal or by a fault."""
        if self.ending and not self.ending.done():
            if isinstance(how, BaseException):
                self.ending.set_exception(how)
            else:
                self.ending.set_result(how)

    def _member(self) -> SocketMember:
        try:
            return SocketMember(self.members.append, self.gone, self.wake)
        except Exception as fault:
            self.faults.tell("a connection", fault)
            raise

    async def _close(self, server: asyncio.AbstractServer) -> None:
        """Ends everything. What goes wrong here hides nothing of why it ended."""
        self.is_closing = True
        server.close()
        for task in list(self.tasks):
            task.cancel()
        farewell = encoded({"event": "told", "text": "the share has ended"})
        for member in list(self.members):
            with contextlib.suppress(Exception):
                member.is_gone = True
                member.end(farewell)
        try:
            await asyncio.sleep(FAREWELL)
            await self.pool.close()
        except Exception as fault:  # pylint: disable=broad-except
            self.faults.tell("the end of the worker processes", fault)

    # Turns

    def wake(self) -> None:
        """A turn is due."""
        if not self.is_awake and not self.is_closing:
            asyncio.get_running_loop().call_soon(self._turn)
            self.is_awake = True

    def _turn(self) -> None:
        try:
            self.is_awake = False
            self.shared.mend()
            self._sweep()
            self._serve_some()
            self.shared.mend()
            self._work()
            self._spread()
            self._again()
        except Unkept as fault:
            self.end(fault)
        except Mistake as mistake:
            self.faults.tell_cause("a turn", mistake)
            self._wake_after(REST)
        except Exception as fault:  # pylint: disable=broad-except
            self.faults.tell("a turn", fault)
            self._wake_after(REST)

    def _beat(self) -> None:
        """The system wakes the server from time to time: no fault of a turn keeps the next ones from coming."""
        self.is_awake = False
        self.wake()
        for each in self.beaten:
            try:
                each()
            except Exception as fault:  # pylint: disable=broad-except
                self.faults.tell("what is done every second", fault)

    def _drop_hidden(self) -> None:
        """Proposals go that nobody shows any more, for a fault."""
        found = self.shared.proposals.open
        for number in [number for number, made in found.items() if not made.text and not self.tasks]:
            del found[number]

    def _count_here(self) -> None:
        here = Counter(member.seat for member in self.members if member.seat is not None)
        if +self.shared.here != here:
            self.shared.here = here

    def mend(self) -> None:
        """Recovers the network where that could not be done when an error came up. Mistake where it cannot be now."""
        try:
            self.shared.mend()
        except Unkept as fault:
            self.end(fault)
            raise

    def _sweep(self) -> None:
        """Ends what a fault left behind: connections that have gone, and requests whose answers were lost."""
        for member in list(self.members):
            if member.is_lost:
                self.gone(member)
            elif member.is_gone and not member.is_ending:
                member.let_go(member.why)
            elif member.owed > len(member.tasks) and not self.answers:
                member.let_go(LOST)

    def _serve_some(self) -> None:
        """Serves one request of each who has one, until the time is up: first of those who took least."""
        began = now = time.monotonic()
        ready = [member for member in self.members if member.wait(now) == 0]
        for member in sorted(ready, key=lambda each: each.cost(began)):
            if not member.lines:
                continue
            self._serve(member, now)
            now, before = time.monotonic(), now
            member.spent(now - before)
            if now - began > SLICE:
                break

    def _serve(self, member: Member, now: float) -> None:
        """Serves the next request of one. Whatever goes wrong ends this request alone."""
        number: Any = None
        # Where an error comes up here, nothing was done: the request is served by another turn, or he is let go.
        member.owed += 1
        line = member.take(now)
        try:
            self.shared.mend()
            request = request_in(line)
            number = request.get("id")
            with self.shared.guarded():
                answer = self.answering.answer(member, request)
        except Malformed as mistake:
            answer, number = {"error": str(mistake)}, mistake.number
        except Unkept:
            raise
        except Mistake as mistake:
            self.faults.tell_cause("a request", mistake)
            answer = {"error": str(mistake)}
        except Exception as fault:  # pylint: disable=broad-except
            self.faults.tell("a request", fault)
            what = "the request was not done" if self.shared.unfinished is None else UNKNOWN
            answer = {"error": "an error came up in the server (%s): %s" % (described(fault), what)}
        if isinstance(answer, dict):
            self._answer(member, number, answer)
        else:
            self._begin(member, self._later(member, number, answer))

    def _answer(self, member: Member, number: Any, answer: Answer) -> None:
        """Has an answer sent behind what happened until now."""
        try:
            message = encoded({"id": number, **answer})
        except Exception as fault:  # pylint: disable=broad-except
            self.faults.tell("an answer", fault)
            message = UNANSWERED
        self.answers.append((member, message))

    def _send(self, member: Member, message: bytes, is_answer: bool = False) -> None:
        """Sends a message to one. Where that cannot be done he is let go, and the others are not concerned."""
        try:
            member.send(message, is_answer)
        except Exception as fault:  # pylint: disable=broad-except
            self.faults.tell("sending", fault)
            with contextlib.suppress(Exception):
                member.let_go("a message could not be sent, for a fault of the server")

    # What takes long

    def _begin(self, member: Member, work: Awaitable[None]) -> None:
        task = asyncio.ensure_future(work)
        for tasks in (self.tasks, member.tasks):
            tasks.add(task)
            task.add_done_callback(tasks.discard)
        task.add_done_callback(lambda _: self.wake())

    async def _later(self, member: Member, number: Any, work: Awaitable[Answer]) -> None:
        """Answers a request whose answer comes later, or never, where who asked has gone."""
        try:
            answer = await work
        except Unkept as fault:
            self.end(fault)
            return
        except Mistake as mistake:
            self.faults.tell_cause("a request that takes long", mistake)
            answer = {"error": str(mistake)}
        except Exception as fault:  # pylint: disable=broad-except
            self.faults.tell("a request that takes long", fault)
            answer = {"error": "an error came up in the server (%s): %s" % (described(fault), UNKNOWN)}
        self._answer(member, number, answer)

    async def _quiet(self) -> Answer:
        """Waits until all queues are empty."""
        found: "asyncio.Future[Answer]" = asyncio.get_running_loop().create_future()
        self.waiting.append(found)
        self.wake()
        try:
            return await found
        finally:
            if found in self.waiting:
                self.waiting.remove(found)

    # Deliveries

    def _work(self) -> None:
        now = time.monotonic()
        if self.shared.deliveries.due(now) == 0:
            try:
                with self.shared.guarded():
                    self.shared.deliveries.work(now)
            except Unkept:
                raise
            except Mistake as mistake:
                self.faults.tell("deliveries", mistake.__cause__ or mistake)
        with contextlib.suppress(Lost):
            self._answer_waiting()

    def _answer_waiting(self) -> None:
        """Answers those who wait until all queues are empty, where they are, or nobody delivers."""
        self.waiting = [each for each in self.waiting if not each.done()]
        if not self.waiting:
            return
        if self.shared.program.is_quiet():
            for each in self.waiting:
                each.set_result({"quiet": True, "step": self.shared.ledger.step})
        elif not self.shared.workers.is_going:
            for each in self.waiting:
                each.set_exception(Mistake("messages wait, and %s" % self.shared.workers.told()))

    # What happens

    def _spread(self) -> None:
        """Tells what happened, and then the answers."""
        if self.is_spreading:
            # A fault of the last turn: what happened until then may not have been told.
            self._tell_missed()
        self.is_spreading = True
        for event in self.shared.happening.taken():
            try:
                self._tell(event)
            except Exception as fault:  # pylint: disable=broad-except
                self.faults.tell("what happened", fault)
                self._tell_missed()
        self.is_spreading = False
        while self.answers:
            member, message = self.answers.popleft()
            self._send(member, message, True)
            member.owed = max(0, member.owed - 1)

    def _tell_missed(self) -> None:
        """Tells that something happened which could not be told."""
        for hear in self.hearers:
            hear({"event": "missed"})
        for member in list(self.members):
            if member.seat is not None and member.watches != "off":
                self._send(member, MISSED)

    def _tell(self, event: Event) -> None:
        for hear in self.hearers:
            hear(event)
        if event["event"] == "changes":
            changes = [dict(each, line=shown(each["line"])) for each in event["changes"]]
            edits = [each for each in changes if not each["line"].startswith("deliver ")]
            self._tell_those({"event": "changes", "changes": changes}, ("all",))
            self._tell_those({"event": "changes", "changes": edits}, ("edits",) if edits else ())
        else:
            self._tell_those(event, ("all", "edits") if event["event"] == "people" else ("all", "edits", "off"))

    def _tell_those(self, event: Event, watching: Tuple[str, ...]) -> None:
        """Tells an event to those who watch so."""
        found = [each for each in self.members if each.seat is not None and each.watches in watching]
        message = encoded(event) if found else b""
        for member in found:
            self._send(member, message)

    def _again(self) -> None:
        """When the next turn is."""
        now = time.monotonic()
        for member in [each for each in self.members if each.is_done and not each.is_ending]:
            member.is_gone = True
            member.finish()
            member.is_ending = True
        waits = [found for found in (member.wait(now) for member in self.members) if found is not None]
        due = self.shared.deliveries.due(now)
        waits += [] if due is None else [due]
        if self.waiting and due is None:
            waits.append(AGAIN)
        if waits:
            self._wake_after(min(waits))

    def _wake_after(self, seconds: float) -> None:
        if self.timer:
            self.timer.cancel()
            self.timer = None
        if seconds <= 0:
            self.wake()
        elif not self.is_closing:
            self.timer = asyncio.get_running_loop().call_later(seconds, self.wake)

    # People

    def come(self, member: Member) -> None:
        """One has come."""
        self.members.append(member)

    def gone(self, member: Member) -> None:
        """One has gone. Where a fault leaves that half done, the next turn does it."""
        member.is_gone = True
        try:
            self.shared.mend()
            with self.shared.guarded():
                if member.seat is not None:
                    self.shared.leave(member.seat, member.why)
                    member.seat = None
            if member in self.members:
                self.members.remove(member)
            # What it waits for is done for nobody.
            for task in list(member.tasks):
                task.cancel()
        except Unkept as fault:
            self.end(fault)
        except Mistake as mistake:
            self.faults.tell("a leave", mistake.__cause__ or mistake)
        if not self.is_closing:
            self.wake()


def run(hub: Hub, at: socket.socket, ready: Callable[[], Awaitable[None]]) -> int:
    """Runs a hub in a loop of its own until it ends: the number of the signal. Raises the fault that ended it."""
    return asyncio.run(hub.serve(at, ready))
