"""Processes of this machine that work side by side: each has one task at a time, and results come as they are done."""
# Not by `concurrent.futures` or joblib: `test_worker_processes` says what these do not do.
from __future__ import annotations

import multiprocessing
import os
import signal
import time
from multiprocessing.connection import Connection, wait
from typing import Any, Callable, Dict, Generic, Iterator, List, NamedTuple, Optional, Tuple, TypeVar, cast

from .mistakes import Mistake
from .output import Progress

Task = TypeVar("Task")
# So long a worker that is asked to end may still take, in seconds.
PATIENCE = 1.0
# So often a task is given to a worker, where each dies of it.
ATTEMPTS = 3


class ProcessPool(Generic[Task]):
    """What a worker does with each task. It is made in the worker, and keeps there what it likes."""

    def __call__(self, task: Task) -> Any:
        raise NotImplementedError

    def close(self) -> None:
        """There is no task any more."""


class Worker(NamedTuple):
    """A process, and this end of the pipe by which it is given tasks and tells results."""
    here: Connection
    process: Any


def processors() -> int:
    """How many processors this process may use."""
    return len(os.sched_getaffinity(0)) if hasattr(os, "sched_getaffinity") else os.cpu_count() or 1


def _work(here: Connection, others: List[Connection], begin: Callable[[], ProcessPool[Any]]) -> None:
    """The body of a worker: replies to each task until there is none. Ctrl-C is for the tool, which then ends it."""
    Progress.is_wanted = False
    signal.signal(signal.SIGINT, signal.SIG_IGN)
    for number in (signal.SIGTERM, signal.SIGHUP):
        signal.signal(number, signal.SIG_DFL)
    for other in others:
        other.close()
    do = begin()
    try:
        while True:
            here.send((do(here.recv()), None))
    except (EOFError, BrokenPipeError, ConnectionResetError):
        # The tool has ended.
        pass
    except Mistake as mistake:
        here.send((None, mistake))
    finally:
        do.close()


def died_of(_: Any, why: str) -> Any:
    """What becomes of a task of which workers die, unless it is said otherwise: it ends all."""
    raise Mistake(why)


class Workers(Generic[Task]):
    """Workers, as many as are asked for. A worker that dies is replaced, and its task is tried again. Where the last of
    ATTEMPTS has died, `died` is told the task and why, and gives the result, or raises."""

    def __init__(self, count: int, begin: Callable[[], ProcessPool[Task]],
                 died: Callable[[Task, str], Any] = died_of) -> None:
        self.begin, self.died = begin, died
        self.workers: List[Worker] = []
        # How often workers died of the task that each number has.
        self.attempts: Dict[int, int] = {}
        # Each worker has what is here now; nothing is sent to it but tasks.
        self.context = multiprocessing.get_context("fork")
        for _ in range(count):
            self.workers.append(self._started())

    def _started(self) -> Worker:
        """A new worker. It has no end of the others' pipes: so each sees that the tool has ended."""
        here, there = self.context.Pipe()
        others = [worker.here for worker in self.workers if not worker.here.closed]
        process = self.context.Process(target=_work, args=(there, others + [here], self.begin))
        process.start()
        there.close()
        return Worker(here, process)

    def results(self, choose: Callable[[int], Optional[Task]]) -> Iterator[Tuple[Task, Any]]:
        """Each task with its result, as they are done. `choose` gives the next task to the worker of a number, or
        nothing. Mistake where a worker tells one."""
        busy: Dict[int, Task] = {}
        self._occupy(busy, list(range(len(self.workers))), choose)
        while busy:
            told = [(number, *self._result(number, busy[number])) for number in self._ready(busy)]
            done = [(busy[number], result) for number, is_done, result in told if is_done]
            self._occupy(busy, [number for number, is_done, _ in told if is_done], choose)
            yield from done

    def _occupy(self, busy: Dict[int, Task], idle: List[int], choose: Callable[[int], Optional[Task]]) -> None:
        """Gives workers their next tasks; those for which there is none are busy no more."""
        for number in idle:
            task = choose(number)
            if task is not None:
                busy[number], self.attempts[number] = task, 0
                self._give(number, task)
            elif number in busy:
                del busy[number]

    def _ready(self, busy: Dict[int, Task]) -> List[int]:
        """The workers that have told a result, or died."""
        told = wait([self.workers[number].here for number in busy])
        return [number for number in busy if self.workers[number].here in told]

    def _result(self, number: int, task: Task) -> Tuple[bool, Any]:
        """Whether the task of a worker is done, and with which result. It is not where the worker has died of it and
        another one tries it again."""
        try:
            return True, self._take(number)
        except EOFError:
            ended = self._replace(number)
        self.attempts[number] += 1
        if self.attempts[number] == ATTEMPTS:
            return True, self.died(task, "a process that worked has died %d times, %s" % (ATTEMPTS, ended))
        self._give(number, task)
        return False, None

    def _give(self, number: int, task: Task) -> None:
        try:
            self.workers[number].here.send(task)
        except (BrokenPipeError, ConnectionResetError):
            # Why it died is what is read from it next.
            pass

    def _take(self, number: int) -> Any:
        """What a worker tells; EOFError where it has died."""
        try:
            result, mistake = self.workers[number].here.recv()
        except ConnectionResetError:
            raise EOFError from None
        if mistake:
            raise mistake
        return result

    def _replace(self, number: int) -> str:
        """Begins a worker in the place of one that has died, and says how that one ended."""
        here, process = self.workers[number]
        here.close()
        process.join()
        self.workers[number] = self._started()
        status = cast(int, process.exitcode)
        return "with status %d" % status if status >= 0 else "by signal %d, %s" % (-status, signal.strsignal(-status))

    def close(self) -> None:
        """Ends the workers: those that still work after PATIENCE are stopped."""
        for worker in self.workers:
            worker.here.close()
        until = time.monotonic() + PATIENCE
        for _, process in self.workers:
            process.join(max(0.0, until - time.monotonic()))
            if process.is_alive():
                process.terminate()
                process.join()

    def __enter__(self) -> "Workers[Task]":
        return self

    def __exit__(self, *_: object) -> None:
        self.close()
