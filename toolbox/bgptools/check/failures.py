"""Links, routers and sessions whose failure takes a route or a packet's way from others: by the sweep."""
from __future__ import annotations

import argparse
from typing import Iterator, List, Optional

from ..program import location, provenance
from ..program.script import Line
from ..sweep.effect_counts import Figures
from ..sweep.effect_file import Results
from ..sweep.executor import about, rows_of
from ..sweep.families import FAILURES, Trial
from ..sweep.local_pool import play_here
from ..sweep.player import Job, Player, converged_job
from .finding import Finding


def single_points(lines: List[Line], script: str, most: Optional[int], jobs: int) -> Iterator[Finding]:
    """Each single point of failure among all links, routers and sessions. Raises Mistake as `sweep` does."""
    words = argparse.Namespace(order=None, by_router=False, seed=None, most=most, base=script)
    job = converged_job(Job(lines, [], words))
    player = Player(job)
    player.close()
    job.trials = [trial for family in FAILURES.values() for trial in family(player.quiet.network)]
    if not job.trials:
        return
    known = Results(None, about([job]), False, provenance.of(location.program()))
    try:
        play_here([job], player.quiet, known, jobs)
    finally:
        known.close()
    for trial, found in zip(job.trials, rows_of([job], known)):
        if found.is_single or found.mistake or not found.is_converged:
            yield _finding(trial, found, script)


def _finding(trial: Trial, found: Figures, script: str) -> Finding:
    told = "%d routes are lost, %d packets end in black holes, %d in loops" % (found.lost, found.black_holes, found.loops)
    if not found.is_converged:
        told = "the network does not converge then"
    return Finding("single-point", "%s: %s" % (trial.title, found.mistake or told),
                   "`sweep %s --fail-%ss`" % (script, trial.kind), found.lost + found.black_holes + found.loops,
                   next(iter(sorted(trial.failed)), None))
