"""What a sweep tries: the network of its base, in parts of some prefixes each, and the changes of its families."""
from __future__ import annotations

import argparse
from dataclasses import dataclass, replace
from typing import List, Optional, Tuple

from ..change.baseline import Baseline
from ..convergence.run import Run
from ..network.configuration import Network
from ..network.prefix_parts import Parts
from ..program.script import Line, read
from . import families
from .families import Trial
from .player import Job, Player, converged_job

# A script with some of its prefixes, and the changes with these.
Part = Tuple[List[Line], List[Trial]]


def trials_of(network: Network, chosen: argparse.Namespace) -> List[Trial]:
    """The changes that are asked for."""
    found = [trial for name, family in families.FAILURES.items() if getattr(chosen, name) for trial in family(network)]
    if chosen.pairs:
        found += families.pairs(found or families.links(network), chosen.sample, 1 if chosen.seed is None else chosen.seed)
    found += [trial for to in chosen.hijack for trial in families.hijacks(network, to)]
    found += families.files(chosen.changes) if chosen.changes else []
    return found + families.orders(chosen.orders or 0)


@dataclass
class Sweep:
    """The changes and the network that they are tried on; `jobs` are its parts. `quiet` is there where it is one part
    that is played here."""
    trials: List[Trial]
    network: Network
    jobs: List[Job]
    quiet: Optional[Baseline] = None


def sweep_of(chosen: argparse.Namespace) -> Sweep:
    """The sweep that is asked for."""
    lines = read(chosen.base)
    words = argparse.Namespace(order=chosen.order, by_router=False, seed=None, most=chosen.most, base=chosen.base)
    if chosen.by_prefix is None and chosen.scheduler is None:
        job = converged_job(Job(lines, [], words, chosen.html))
        player = Player(job)
        player.close()
        job.trials = trials_of(player.quiet.network, chosen)
        return Sweep(job.trials, player.quiet.network, [job], player.quiet)
    with Run() as run:
        run.play(lines)
        found = trials_of(run.network, chosen)
    return Sweep(found, run.network, [Job(part, changes, words, chosen.html)
                                      for part, changes in _parts(lines, found, chosen.by_prefix)])


def _parts(lines: List[Line], found: List[Trial], count: Optional[int]) -> List[Part]:
    """The script and the changes, by so many prefixes at a time: prefixes that contain one another stay together."""
    if count is None:
        return [(lines, found)]
    parts = Parts(lines, [line for trial in found for line in trial.lines], count, has_inner_together=True)
    changes = [parts.of(trial.lines) for trial in found]
    return [(part, [replace(trial, lines=tuple(own[at])) for trial, own in zip(found, changes)])
            for at, part in enumerate(parts.of(lines))]
