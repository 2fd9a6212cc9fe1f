"""A change made in a converged network."""
from __future__ import annotations

import argparse
from typing import List, Optional, Tuple

from ..convergence.delivery import Convergence
from ..convergence.orders import add_order, order_of
from ..convergence.run import Run, not_converged
from ..invariants.language import invariants_in
from ..invariants.state import State
from ..invariants.verdicts import breaches
from ..program.mistakes import Mistake
from ..program.script import Line
from .report import SHOWN
from .transients import Watch


def converged_base(lines: List[Line], chosen: argparse.Namespace) -> Tuple[Run, Convergence]:
    """The base, with all queues empty."""
    run = Run(order_of(chosen), chosen.most, tries_others=True)
    run.play(lines)
    done = run.converge()
    if not done.is_converged:
        raise Mistake("the base does not converge: " + not_converged(done, run.network.names), chosen.base)
    return run, done


def changed(base: Run, lines: List[Line], chosen: argparse.Namespace) -> Tuple[Run, Watch, List[Convergence]]:
    """The same network with the change."""
    run = Run(order_of(chosen), chosen.most, tries_others=True)
    run.repeat(base.lines)
    watch = Watch(run)
    return run, watch, apply(watch, lines, chosen.each)


def apply(watch: Watch, lines: List[Line], is_each: bool) -> List[Convergence]:
    """Makes a change in a quiet network: the deliveries that empty the queues after each of its commands, or at its end."""
    run, done = watch.run, []
    for line in lines:
        run.check(line, watch.say(line))
        if is_each and line.is_command:
            done.append(run.converge())
            watch.converged()
    return done + [run.converge()]


def broken(path: Optional[str], base: Run, after: Run) -> List[str]:
    """The invariants of a file that the network with the change breaks, those first that the base kept.

    A file that names what the base lacks is one of the network with the change: the base keeps none of it."""
    if path is None:
        return []
    now = [each.text for each in breaches(invariants_in(path, after.network), State(after))]
    try:
        before = {each.text for each in breaches(invariants_in(path, base.network), State(base))}
    except Mistake:
        before = set()
    return sorted(now, key=lambda text: text in before)


# The tool

def parser() -> argparse.ArgumentParser:
    """The words of the command line."""
    made = argparse.ArgumentParser(prog="what-if", description=(
        "What a change does: plays BASE until all queues are empty, then CHANGE, any commands, until they are empty again, and tells what "
        "differs, router by router."),
        epilog="Exit status: 0 nothing changed; 1 something did, an invariant is broken, or it does not converge; 2 a mistake, as a line that is refused.")
    made.add_argument("base", metavar="BASE", help="the script of the network; it needs no deliveries")
    made.add_argument("change", metavar="CHANGE", nargs="?", help="the script of the change; - is standard input")
    made.add_argument("--trace", nargs=2, metavar=("R", "D"), action="append", default=[],
                      help="tell how a packet goes from router R to address D, or that of a router's name; may be given again")
    made.add_argument("--each", action="store_true", help="empty the queues after each command of CHANGE, and not only at its end")
    made.add_argument("--all", action="store_true", help="list all: each prefix of a long answer by itself, and not only the first %d of much of a kind" % SHOWN)
    made.add_argument("--invariants", metavar="FILE", help="what has to hold, as of check: what the change breaks is told first, then what BASE breaks, too")
    made.add_argument("--json", action="store_true", help="tell it as JSON")
    add_order(made)
    made.add_argument("--most", type=int, metavar="N", help="stop after so many deliveries")
    return made
