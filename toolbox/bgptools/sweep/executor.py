"""A sweep: all its changes, on all parts of the network, by processes here or on a cluster; and how far it is."""
from __future__ import annotations

import hashlib
import json
from typing import Iterator, List, Protocol, Tuple

from .. import __version__
from ..program.progress import Clock
from .effect_counts import Figures, together
from .effect_file import Results, Task
from .player import Job
from .table import NUMBERS


class Executor(Protocol):
    """What tries the changes of a sweep: processes of this machine (`local_pool`), or a cluster (`cluster`)."""

    def results(self, tasks: List[Task]) -> Iterator[Tuple[Task, Figures]]:
        """Each task with its figures, as they are done. A task of which workers die is `lost`, and the others go on."""

    def close(self) -> None:
        """Nothing more is asked. What is not done is given up."""


def lost(_: Task, why: str) -> Figures:
    """The figures of a task of which one worker after another died."""
    return Figures(mistake=why, is_lost=True)


def gather(executor: Executor, jobs: List[Job], known: Results) -> None:
    """Does what is not known, keeps each result as it comes, and tells how far it is."""
    clock = Clock(len(jobs) * len(jobs[0].trials), len(known.known))
    try:
        for task, figures in executor.results(tasks_of(jobs, known)):
            known.add(task, figures)
            clock.tell()
    finally:
        clock.end()
        executor.close()


def about(jobs: List[Job]) -> str:
    """What tells a sweep from others, as a digest: scripts, changes and words."""
    told = [__version__, NUMBERS, [[line.text for line in job.script] for job in jobs], jobs[0].has_texts,
            [jobs[0].chosen.order, jobs[0].chosen.most],
            [[trial.kind, trial.title, trial.seed, [line.text for line in trial.lines]]
             for job in jobs for trial in job.trials]]
    return hashlib.sha256(json.dumps(told).encode()).hexdigest()


def tasks_of(jobs: List[Job], known: Results) -> List[Task]:
    """What is to be done, and is not known."""
    return [task for part, job in enumerate(jobs) for task in ((part, number) for number in range(len(job.trials)))
            if task not in known.known]


def rows_of(jobs: List[Job], known: Results) -> List[Figures]:
    """The figures of each change, over all parts of the network."""
    return [together([known.known[part, number] for part in range(len(jobs))]) for number in range(len(jobs[0].trials))]
