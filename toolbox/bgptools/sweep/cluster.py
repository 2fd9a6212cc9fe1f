"""A sweep by the workers of a Dask cluster: each keeps its part of the network, and has one change a thread.

The cluster gets this package as a file, and each part of the network once a worker. Only the program has to be on its
machines. Dask sends and runs; which worker has which change is chosen here, as for processes of this machine."""
from __future__ import annotations

import asyncio
import concurrent.futures
import contextlib
import importlib
import logging
import os
import pickle
import queue
import sys
import tempfile
import threading
import time
import uuid
import warnings
import zipfile
from dataclasses import dataclass
from typing import Any, Dict, Iterator, List, Optional, Set, Tuple, Union

from .. import __version__
from ..program import location
from ..program.mistakes import Mistake
from ..program.process_pool import ATTEMPTS
from .cluster_worker import Call, Reply, Version, difference, end_there, play_there, version_of
from .effect_counts import Figures
from .effect_file import Results, Task
from .executor import gather, lost
from .local_pool import Plan
from .player import Job

PACKAGE = "distributed"
# So long a scheduler is waited for, and a worker where there is none, in seconds.
PATIENCE = 30
# So long a scheduler may take to note that the sweep has ended, in seconds.
CLOSING = 5
# So often the scheduler is asked for its workers, in seconds.
OFTEN = 0.5
# How calls of Dask end where the connection does; and where the client has closed itself for that.
LOST = (OSError, concurrent.futures.CancelledError, asyncio.CancelledError)
CLOSED = (*LOST, ValueError, AttributeError, RuntimeError)


class Gone(Exception):
    """The scheduler, or the last worker, has gone."""


def play_by(address: str, program: Optional[str], jobs: List[Job], known: Results) -> None:
    """Does what is not known by the cluster of the scheduler at this address.

    Mistake where there is none, a worker has another program, or the scheduler goes away: what is known then stays."""
    dask = importlib.import_module(PACKAGE)
    _be_silent()
    try:
        client = dask.Client(address, timeout=PATIENCE)
    except (OSError, ValueError, dask.TimeoutError) as error:
        raise Mistake("--scheduler %s: there is no scheduler: %s" % (address, error)) from None
    try:
        _send_package(client)
        version = _check_versions(client, address, program)
        gather(Cluster(dask, client, "--scheduler " + address, Call("", 0, 0, version, program, 1), jobs), jobs, known)
    except (Gone, *LOST) as fault:
        why = str(fault) if isinstance(fault, Gone) else "the scheduler has gone"
        raise Mistake("--scheduler %s: %s: %s" % (address, why, _kept(jobs, known))) from None
    finally:
        with contextlib.suppress(dask.TimeoutError, *CLOSED):
            client.close(timeout=CLOSING)


def _be_silent() -> None:
    """That a worker died, and what is done again, is nothing for a reader of the table."""
    for name in (PACKAGE, PACKAGE + ".client", "asyncio", "tornado.application"):
        logging.getLogger(name).setLevel(logging.CRITICAL)
    warnings.filterwarnings("ignore", "(Large object|Sending large graph)")


def _kept(jobs: List[Job], known: Results) -> str:
    """What becomes of results where a sweep ends early."""
    if known.path is None:
        return "no results are kept; `--results FILE` keeps them, and `--resume` goes on"
    return "%d of %d results are in %s, and `--resume` goes on" % (
        sum(not figures.is_lost for figures in known.known.values()), len(jobs) * len(jobs[0].trials), known.path)


def _send_package(client: Any) -> None:
    """Gives the workers this package; those that come later get it, too."""
    with tempfile.TemporaryDirectory() as folder:
        path = os.path.join(folder, "bgptools-%s.zip" % __version__)
        with zipfile.ZipFile(path, "w", zipfile.ZIP_DEFLATED) as archive:
            for file in sorted(location.HERE.rglob("*")):
                if file.is_file() and file.parent.name != "__pycache__":
                    archive.write(str(file), "bgptools/" + file.relative_to(location.HERE).as_posix())
        client.upload_file(path)


def _check_versions(client: Any, address: str, program: Optional[str]) -> Version:
    """The versions here. Mistake where a worker has another version of something, another program, or none."""
    here, there = version_of(None), client.run(version_of, program)
    if not there:
        raise Mistake("--scheduler %s: it has no workers" % address)
    for worker, found in there.items():
        if found != here:
            raise Mistake("--scheduler %s: the worker %s has %s" % (address, worker, difference(found, here)))
    return here


@dataclass
class Lane:
    """A thread of a worker, which has one task at a time. `held` is the part that the worker got for it."""
    worker: str
    number: int
    most: int
    held: int = -1
    task: Optional[Task] = None


class Cluster:
    """A cluster, as `gather` wants it: workers come and go. The task of one that has gone is tried again, ATTEMPTS
    times in all; then it is `lost`, and the others go on. Raises Gone where the scheduler goes."""

    def __init__(self, dask: Any, client: Any, called: str, call: Call, jobs: List[Job]) -> None:
        self.dask, self.client, self.called, self.call, self.jobs = dask, client, called, call, jobs
        self.sweep = uuid.uuid4().hex
        self.events: "queue.Queue[Union[Dict[str, int], str, Any]]" = queue.Queue()
        self.ended = threading.Event()
        # The threads of workers, whose versions are not known before the first reply; and those that get no work.
        self.lanes: Dict[str, List[Lane]] = {}
        self.aside: Set[str] = set()
        self.count, self.alone = 0, 0.0
        # What is under way, and how often workers died of a task.
        self.busy: Dict[Any, Lane] = {}
        self.deaths: Dict[Task, int] = {}
        self.plan = Plan([])

    def results(self, tasks: List[Task]) -> Iterator[Tuple[Task, Figures]]:
        """Each task with its figures, as they are done."""
        self.plan, left = Plan(tasks), len(tasks)
        threading.Thread(target=self._watch, daemon=True).start()
        while left:
            for told in self._heard():
                left -= 1
                yield told
            self._give()

    def _watch(self) -> None:
        """Tells again and again which workers there are, and at the end that the scheduler has gone."""
        while not self.ended.is_set():
            try:
                self.events.put(dict(self.client.nthreads()))
            except CLOSED:
                self.events.put("gone")
                return
            self.ended.wait(OFTEN)

    def _heard(self) -> List[Tuple[Task, Figures]]:
        """Waits for something to happen, and tells the results that it brings."""
        try:
            event = self.events.get(timeout=PATIENCE)
        except queue.Empty:
            raise Gone("the scheduler does not answer") from None
        if event == "gone":
            raise Gone("the scheduler has gone")
        if isinstance(event, dict):
            return self._changed(event)
        # (one whose worker has gone is nobody's any more)
        return self._done(event, self.busy.pop(event)) if event in self.busy else []

    def _changed(self, there: Dict[str, int]) -> List[Tuple[Task, Figures]]:
        """Takes what workers there are: new ones get lanes, and the tasks of those that have gone are given back."""
        dead = [(future, lane) for future, lane in self.busy.items() if lane.worker not in there]
        for worker in [worker for worker in self.lanes if worker not in there]:
            for lane in self.lanes.pop(worker):
                self.plan.leave(lane.number)
        for worker, threads in there.items():
            if worker not in self.lanes and worker not in self.aside:
                self.lanes[worker] = [Lane(worker, self.count + at, threads) for at in range(threads)]
                self.count += threads
        now = time.monotonic()
        self.alone = 0.0 if self.lanes else self.alone or now
        if self.alone and now - self.alone > PATIENCE:
            raise Gone("it has no workers of this program any more")
        found = []
        for future, lane in dead:
            del self.busy[future]
            found += self._died(future, lane, "it has gone")
        return found

    def _died(self, future: Any, lane: Lane, why: str) -> List[Tuple[Task, Figures]]:
        """The worker that had a task could not do it: the task is given back, or lost."""
        future.release()
        task, lane.task, lane.held = lane.task, None, -1
        assert task
        self.deaths[task] = self.deaths.get(task, 0) + 1
        if self.deaths[task] == ATTEMPTS:
            return [(task, lost(task, "%d workers could not do it, at last %s: %s" % (ATTEMPTS, lane.worker, why)))]
        self.plan.give_back(task)
        return []

    def _done(self, future: Any, lane: Lane) -> List[Tuple[Task, Figures]]:
        """What became of the task of a lane. Mistake where the part has one."""
        if future.status == "cancelled":
            raise Gone("the scheduler has gone")
        fault = future.exception() if future.status == "error" else None
        if isinstance(fault, Mistake):
            raise fault
        if fault:
            if not isinstance(fault, self.dask.KilledWorker):
                self._set_aside(lane.worker, "it failed with %s: %s" % (type(fault).__name__, fault))
            return self._died(future, lane, str(fault))
        try:
            reply: Reply = future.result(timeout=PATIENCE)
        except self.dask.TimeoutError:
            return self._died(future, lane, "it has gone")
        future.release()
        return self._replied(reply, lane)

    def _replied(self, reply: Reply, lane: Lane) -> List[Tuple[Task, Figures]]:
        """What the worker of a lane replied: figures, or that the task is for another one, or to be sent whole."""
        task, lane.task = lane.task, None
        assert task
        if reply.figures is not None:
            return [(task, Figures(**reply.figures))]
        self.plan.give_back(task)
        lane.held = -1
        if reply.version:
            self._set_aside(lane.worker, "it has " + difference(reply.version, self.call.version))
        return []

    def _set_aside(self, worker: str, why: str) -> None:
        """A worker gets no more work."""
        if worker not in self.aside:
            print("%s: the worker %s gets no work: %s" % (self.called, worker, why), file=sys.stderr)
        self.aside.add(worker)
        for lane in self.lanes.pop(worker, ()):
            self.plan.leave(lane.number)

    def _give(self) -> None:
        """Gives each lane that has nothing its next task."""
        for lane in [lane for lanes in self.lanes.values() for lane in lanes if lane.task is None]:
            lane.task = self.plan.choose(lane.number)
            if lane.task:
                self._submit(lane, *lane.task)

    def _submit(self, lane: Lane, part: int, number: int) -> None:
        if self.client.status != "running":
            raise Gone("the scheduler has gone")
        job = None if lane.held == part else pickle.dumps(self.jobs[part])
        lane.held = part
        call = Call(self.sweep, part, number, self.call.version, self.call.program, lane.most, job)
        future = self.client.submit(play_there, call, workers=[lane.worker], pure=False)
        self.busy[future] = lane
        future.add_done_callback(self.events.put)

    def close(self) -> None:
        """Gives up what is not done, and ends what the workers keep."""
        self.ended.set()
        with contextlib.suppress(*CLOSED):
            for future in self.busy:
                future.release()
            if self.lanes and self.client.status == "running":
                # (one that has gone since then would be waited for)
                there = self.client.nthreads()
                self.client.run(end_there, self.sweep, workers=[worker for worker in self.lanes if worker in there])
