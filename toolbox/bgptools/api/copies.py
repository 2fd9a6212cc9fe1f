"""Copies of a run: a network is its script, so another program plays the same."""
from __future__ import annotations

from typing import List

from ..convergence.run import Run
from ..program.language import is_silent, words_of
from ..program.line_count import is_accepted
from ..program.mistakes import Mistake


def copy_of(run: Run) -> Run:
    """Another run with the same network as it stands. It delivers what waits in the order in which this one would."""
    made = Run()
    try:
        made.repeat(run.lines)
    except BaseException:
        made.close()
        raise
    here, there = run.deliverer, made.deliverer
    there.is_unsure, there.waiting.knows_all = here.is_unsure, here.waiting.knows_all
    there.waiting.most = dict(here.waiting.most)
    there.waiting.chosen = {router: dict(chosen) for router, chosen in here.waiting.chosen.items()}
    return made


def played(lines: List[str]) -> Run:
    """A new run of lines that another one accepted, as if each had been said by itself."""
    made = Run()
    try:
        replies = iter(made.program.pour(lines))
        for line in lines:
            _note(made, line, [] if is_silent(line) else [next(replies)])
    except BaseException:
        made.close()
        raise
    made.lines = list(lines)
    return made


def _note(run: Run, line: str, reply: List[str]) -> None:
    """Notes what a line configured and may have put into queues."""
    if is_accepted(reply):
        words = words_of(line)
        run.network.take(words)
        run.deliverer.after(words, reply)
    elif reply or not run.network.names.take(line):
        raise Mistake("`%s` was accepted before, and now it is %s" % (line, reply[0] if reply else "none"))
