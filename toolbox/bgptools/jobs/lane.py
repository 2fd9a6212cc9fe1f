"""Requests for the same workers: those that wait, and those that are being answered."""
from __future__ import annotations

import asyncio
import functools
import math
from typing import Awaitable, Callable, Dict, List, Optional, Sequence, Set, Tuple, TypeVar

from ..program.mistakes import Mistake
from .cache import Cache
from .frames import ANSWER, END, JOB, LAST, MISTAKE, PLACES, json_out
from .limits import Limits
from .process import Ended, Process
from .queue import Queue
from .request import Request
from .script import Script

T = TypeVar("T")
CLOSED = "the server ends, and answers no more"
FAILED = "the worker process failed, and there is no answer: %s"


async def within(seconds: float, work: Awaitable[T]) -> T:
    """What the work brings. Ended where it takes longer; it is cancelled then, and when this is."""
    task = asyncio.ensure_future(work)
    try:
        done, _ = await asyncio.wait({task}, timeout=seconds)
        if not done:
            raise Ended("it took more than %d seconds" % math.ceil(seconds))
        return task.result()
    finally:
        if not task.done():
            task.cancel()
        elif not task.cancelled():
            # It is known that there is one, so that nobody is told that it was passed over.
            task.exception()


def answer_of(kind: int, content: bytes) -> bytes:
    """The answer that a frame is. Mistake where it tells one, Ended where the worker ends without an answer."""
    if kind == MISTAKE:
        raise Mistake(content.decode("utf-8", "replace"))
    if kind == END:
        raise Ended(content.decode("utf-8", "replace"))
    if kind not in (ANSWER, LAST):
        raise Ended("it wrote what is no answer")
    return content


def _impossible(fault: Exception) -> Mistake:
    """What is told of a fault to who asked. The fault is its cause."""
    made = Mistake("it cannot be done: %s" % (str(fault) or type(fault).__name__))
    made.__cause__ = fault
    return made


class Lane:
    """Answers so many requests at once, each in a task."""

    def __init__(self, limits: Limits, token: str, places: int) -> None:
        self.limits, self.token, self.places = limits, token, places
        self.queue = Queue(limits)
        self.running: "Dict[Request, asyncio.Task[None]]" = {}
        self.cancelled: Set[Request] = set()
        self.workers: Set[Process] = set()
        self.is_closed = False

    async def ask(self, request: Request) -> bytes:
        """The answer to a request. Busy where too many wait, Mistake where there is none."""
        try:
            if self.is_closed:
                raise Mistake(CLOSED)
            self.queue.add(request)
        except Mistake:
            request.release()
            raise
        try:
            self.pump()
            return await request.answer
        finally:
            self._left(request)

    def pump(self) -> None:
        """Begins what may begin."""
        for ended in [request for request, task in self.running.items() if task.done()]:
            # A fault kept it from being taken away.
            self._forget(ended)
        while not self.is_closed and len(self.running) < self.places:
            request = self.queue.take(self.may_begin)
            if request is None:
                return
            try:
                task = asyncio.get_running_loop().create_task(self._run(request))
                self.running[request] = task
                task.add_done_callback(functools.partial(self._ended, request))
            except Exception as fault:
                request.failed(_impossible(fault))
                request.release()
                raise

    def may_begin(self, request: Request) -> bool:
        """Whether a request that waits may begin."""
        raise NotImplementedError

    async def serve(self, request: Request) -> bytes:
        """The answer of a worker. Mistake or Ended where there is none."""
        raise NotImplementedError

    async def _start(self, niceness: int, files: Sequence[int]) -> Process:
        """A worker."""
        worker = await Process.start(self.limits, self.token, niceness, files)
        self.workers.add(worker)
        return worker

    async def _end(self, worker: Process, is_orderly: bool = False) -> None:
        """Ends a worker. Where that is interrupted, `close` ends it."""
        await worker.end(is_orderly)
        self.workers.discard(worker)

    def _left(self, request: Request) -> None:
        """Nobody waits for a request any more."""
        if self.queue.remove(request):
            request.release()

    async def _run(self, request: Request) -> None:
        try:
            request.done(await self.serve(request))
        except Mistake as mistake:
            request.failed(mistake)
        except Ended as why:
            request.failed(Mistake(FAILED % why))
        except Exception as fault:  # pylint: disable=broad-except
            request.failed(_impossible(fault))
            # Whoever asked may have gone: the loop's handler tells it.
            asyncio.get_running_loop().call_exception_handler({"message": "a worker process", "exception": fault})
        self.share(request)

    def share(self, request: Request) -> None:
        """What came of a request comes of all that wait for the same. Who asks after that asks anew."""

    def _ended(self, request: Request, task: "asyncio.Task[None]") -> None:
        """The task of a request has ended."""
        self._forget(request)
        self.pump()

    def _forget(self, request: Request) -> None:
        """Nothing is done for a request any more."""
        request.failed(Mistake(CLOSED))
        request.release()
        self.cancelled.discard(request)
        self.running.pop(request, None)

    def cancel(self, request: Request) -> None:
        """Ends the task of a request, once: it waits for the end of its worker then."""
        if request in self.running and request not in self.cancelled:
            self.cancelled.add(request)
            self.running[request].cancel()

    async def close(self) -> None:
        """Ends all, and waits for that."""
        self.is_closed = True
        for request in list(self.queue):
            self.queue.remove(request)
            request.failed(Mistake(CLOSED))
            request.release()
        for request in list(self.running):
            self.cancel(request)
        while self.running:
            await asyncio.wait(set(self.running.values()))
            await asyncio.sleep(0)
        for worker in list(self.workers):
            await self._end(worker)


class LongLane(Lane):
    """What-ifs and checks: each has a worker of its own, which ends with it. Each person has one at once."""

    def may_begin(self, request: Request) -> bool:
        return all(request.asker.person != other.asker.person or other in self.cancelled for other in self.running)

    def _left(self, request: Request) -> None:
        super()._left(request)
        if not request.answer.done() or request.answer.cancelled():
            self.cancel(request)

    async def serve(self, request: Request) -> bytes:
        files = [] if request.file is None else [request.file]
        worker, is_orderly = await self._start(0, files), False
        try:
            seconds = self.limits.long_time + self.limits.line_time * len(request.base)
            seconds += self.limits.byte_time * request.job.get("size", 0)
            kind, content = await within(seconds, self._exchange(worker, request))
            is_orderly = kind != END
            return answer_of(kind, content)
        finally:
            await self._end(worker, is_orderly)

    async def _exchange(self, worker: Process, request: Request) -> Tuple[int, bytes]:
        await worker.send_lines(request.base, 0, len(request.base))
        await worker.send(JOB, json_out(request.job))
        return await worker.receive()


class ViewLane(Lane):
    """Pictures and tables: one worker, which keeps the script. An answer to one picture is one to all equal ones."""

    def __init__(self, limits: Limits, token: str, niceness: int, script: Script, cache: Cache,
                 others: Callable[[], List[ViewLane]]) -> None:
        super().__init__(limits, token, 1)
        self.niceness, self.script, self.cache, self.others = niceness, script, cache, others
        self.worker: Optional[Process] = None
        self.round = 0

    def may_begin(self, request: Request) -> bool:
        """Not what workers that do not give way to others work on already."""
        return not any(request.is_answered_by(other) for lane in self.others() if lane.niceness < self.niceness
                       for other in lane.running)

    async def serve(self, request: Request) -> bytes:
        await self.script.count_lines()
        key = None
        if request.shown is not None:
            request.version = self.script.version
            key = (request.version, request.shown)
            kept = self.cache.get(key)
            if kept is not None:
                return kept
            self.script.mark()
        answer = await self._answer(request)
        if key is not None and key[0] == self.script.version:
            self.cache.put(key, answer)
        return answer

    async def _answer(self, request: Request) -> bytes:
        """The answer of the worker, which is ended where it gives none."""
        count, marks = self.script.count, list(self.script.marks)
        if self.worker is not None and (self.worker.has_ended or self.round != self.script.round):
            await self._end_worker()
        if self.worker is None:
            self.worker, self.round = await self._start(self.niceness, ()), self.script.round
        try:
            seconds = self.limits.picture_time + self.limits.line_time * count
            kind, content = await within(seconds, self._exchange(self.worker, request, count, marks))
            answer = answer_of(kind, content)
        except Mistake:
            raise
        except BaseException:
            await self._end_worker()
            raise
        if kind == LAST:
            await self._end_worker(is_orderly=True)
        return answer

    async def _exchange(self, worker: Process, request: Request, count: int, marks: List[int]) -> Tuple[int, bytes]:
        await worker.send_lines(self.script.lines(), worker.lines, count)
        worker.lines = count
        job = request.job
        if request.shown is not None:
            known, places = self.script.places
            if worker.marks < known <= len(marks):
                await worker.send(PLACES, places)
                worker.marks = known
            job = {**job, "marks": marks[worker.marks:]}
            worker.marks = len(marks)
        await worker.send(JOB, json_out(job))
        kind, content = await worker.receive()
        while kind == PLACES:
            if self.round == self.script.round and len(marks) > self.script.places[0]:
                self.script.places = len(marks), content
            kind, content = await worker.receive()
        return kind, content

    def share(self, request: Request) -> None:
        if request.shown is not None:
            for lane in self.others():
                for other in [other for other in lane.queue if other.is_answered_by(request)]:
                    lane.queue.remove(other)
                    request.share(other)

    def _ended(self, request: Request, task: "asyncio.Task[None]") -> None:
        super()._ended(request, task)
        for lane in self.others():
            lane.pump()

    async def _end_worker(self, is_orderly: bool = False) -> None:
        worker, self.worker = self.worker, None
        if worker is not None:
            await self._end(worker, is_orderly)
