"""Runs the program on loads of edits, with all processors and with one, and prints what each took.

    bench/edits [--runs N] KIND N [KIND N ..]        tools/edit-loads says what each load is
    bench/edits [--runs N] --ratios                  origins beside heard, a change of calm 1000 beside one of calm 30,
                                                     a change of moved 1000

It needs the proved program (./bgpsim --prove); PROGRAM= is another one.
Each load is run three times each way, or N times, in turn.
The median of the processor times and of the times of a clock are printed, the least in brackets, and the median of
what the clock's time with all processors is of that with one, pair by pair. What a change alone takes is the
difference of two runs, of the load with its changes several times over and of the load without them, by the number
of changes. The replies have to be the same with one processor and with all.
"""
from __future__ import annotations

import os
import sys
from typing import Collection, List, Sequence, Tuple

from . import commands, edit_loads, programs
from .measuring import Took, by_pairs, spread, took

EVERY = os.sched_getaffinity(0)
ONE = {min(EVERY)}


class Loads:
    """The program on loads of edits, so many times each."""

    def __init__(self, program: str, runs: int):
        self.program, self.runs = program, runs

    def run(self, lines: List[str], processors: Collection[int]) -> Took:
        return took([self.program, "script"], lines, preexec_fn=lambda: os.sched_setaffinity(0, processors))

    def measure(self, kind: str, count: int) -> None:
        """Prints what a load took both ways."""
        lines = edit_loads.lines(kind, count)
        many, one = zip(*[(self.run(lines, EVERY), self.run(lines, ONE)) for _ in range(self.runs)])
        if any(ran.out != many[0].out for ran in many + one):
            sys.exit("%s %d: the replies differ" % (kind, count))
        parts = [told(runs) for runs in (many, one)]
        ratio = by_pairs([ran.clock for ran in many], [ran.clock for ran in one])
        print("%s %d: %d processors: %s; one: %s; %.2f of one's time by the clock" % (
            kind, count, len(EVERY), *parts, ratio), flush=True)

    def change_alone(self, kind: str, count: int, times: int, processors: Collection[int]) -> Took:
        """What a change of the load takes alone, in microseconds."""
        lines = edit_loads.lines(kind, count)
        changes = [line for line in lines if line.startswith("metric ")]
        rest = [line for line in lines if not line.startswith("metric ")]
        with_them, without = self.run(rest + changes * times, processors), self.run(rest, processors)
        each = 1e6 / (times * len(changes))
        return Took(b"", (with_them.processor - without.processor) * each, (with_them.clock - without.clock) * each)

    def ratios(self) -> None:
        """Prints what loads and changes are of their fellows."""
        every = range(self.runs)
        tell("origins 10000 and heard 10000, s of a processor", [
            (self.run(edit_loads.lines("origins", 10000), EVERY).processor,
             self.run(edit_loads.lines("heard", 10000), EVERY).processor) for _ in every])
        tell("a change of calm 1000 and of calm 30, us of a processor", [
            (self.change_alone("calm", 1000, 20, EVERY).processor,
             self.change_alone("calm", 30, 200, EVERY).processor) for _ in every])
        tell("a change of moved 1000 with %d processors and with one, us by the clock" % len(EVERY), [
            (self.change_alone("moved", 1000, 5, EVERY).clock,
             self.change_alone("moved", 1000, 5, ONE).clock) for _ in every])


def told(runs: Sequence[Took]) -> str:
    return "%s s of a processor, %s by the clock" % (
        spread([ran.processor for ran in runs]), spread([ran.clock for ran in runs]))


def tell(what: str, pairs: List[Tuple[float, float]]) -> None:
    some, others = zip(*pairs)
    print("%s: %s and %s; %.2f by pairs" % (what, spread(some), spread(others), by_pairs(some, others)), flush=True)


def main(words: Sequence[str]) -> int:
    """The command."""
    asked = commands.parser(__doc__)
    asked.add_argument("--runs", type=commands.number, default=3, metavar="N")
    asked.add_argument("--ratios", action="store_true")
    asked.add_argument("loads", nargs="*", metavar="KIND N")
    given = asked.parse_args(words)
    if given.runs < 1 or bool(given.loads) == given.ratios:
        asked.error("loads, each KIND with its N, or --ratios; and a run at least")
    pairs = commands.pairs(asked, given.loads, edit_loads.LOADS)
    loads = Loads(programs.current_bgpsim(), given.runs)
    for kind, count in pairs:
        loads.measure(kind, count)
    if given.ratios:
        loads.ratios()
    return 0
