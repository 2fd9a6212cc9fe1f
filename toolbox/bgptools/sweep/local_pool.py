"""A sweep by processes of this machine: each stays with a part of the network while that has changes left."""
from __future__ import annotations

from collections import deque
from typing import Deque, Dict, Iterator, List, Optional, Tuple

from ..change.baseline import Baseline
from ..program.process_pool import ProcessPool, Workers
from .effect_counts import Figures
from .effect_file import Results, Task
from .executor import gather, lost, tasks_of
from .player import Job, Player, converged_job


class LocalPool(ProcessPool[Task]):
    """What a worker does: it tries changes on one part of the network after another, each converged when it is first
    asked for. A network that was converged before the worker began is not converged again."""

    def __init__(self, jobs: List[Job], quiet: Optional[Baseline]) -> None:
        self.jobs, self.quiet = jobs, quiet
        self.part, self.player = -1, None  # type: int, Optional[Player]

    def __call__(self, task: Task) -> Figures:
        return self._player(task[0]).play(task[1])

    def _player(self, part: int) -> Player:
        if self.player is None or part != self.part:
            self.close()
            job = self.jobs[part]
            self.part, self.player = part, Player(job if job.converged else converged_job(job), self.quiet)
        return self.player

    def close(self) -> None:
        if self.player:
            self.player.close()


class Plan:
    """Which task is next: a worker stays with its part of the network while that has any left, then takes one that
    nobody has, and then helps with the one that has most left."""

    def __init__(self, tasks: List[Task]) -> None:
        self.left: Dict[int, Deque[Task]] = {}
        self.at: Dict[int, int] = {}
        for task in tasks:
            self.left.setdefault(task[0], deque()).append(task)

    def choose(self, worker: int) -> Optional[Task]:
        """The next task of a worker, or nothing where there is none left."""
        part = self.at.get(worker, -1)
        if part not in self.left:
            if not self.left:
                return None
            free = [each for each in self.left if each not in self.at.values()]
            part = free[0] if free else max(self.left, key=lambda each: len(self.left[each]))
            self.at[worker] = part
        task = self.left[part].popleft()
        if not self.left[part]:
            del self.left[part]
        return task

    def give_back(self, task: Task) -> None:
        """A task that was chosen is not done: it is the next of its part."""
        self.left.setdefault(task[0], deque()).appendleft(task)

    def leave(self, worker: int) -> None:
        """A worker takes no more tasks: its part is free for another one."""
        self.at.pop(worker, None)


class Pool:
    """So many processes of this machine, as `gather` wants them."""

    def __init__(self, jobs: List[Job], quiet: Optional[Baseline], count: int) -> None:
        self.workers: Workers[Task] = Workers(count, lambda: LocalPool(jobs, quiet), lost)

    def results(self, tasks: List[Task]) -> Iterator[Tuple[Task, Figures]]:
        """Each task with its figures, as they are done."""
        return self.workers.results(Plan(tasks).choose)

    def close(self) -> None:
        """Ends the processes."""
        self.workers.close()


def play_here(jobs: List[Job], quiet: Optional[Baseline], known: Results, count: int) -> None:
    """Does what is not known by so many processes of this machine."""
    gather(Pool(jobs, quiet, min(count, len(tasks_of(jobs, known)))), jobs, known)
