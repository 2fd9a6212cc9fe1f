"""What a change does, before a real network is touched; or how two networks differ, router by router."""
from __future__ import annotations

import argparse
import dataclasses
import os
import sys
from typing import List, Optional, Tuple

from ..change import what_if
from ..change.comparison import compare
from ..change.effect import Outcome
from ..change.report import text_of
from ..change.what_if import broken, changed, converged_base
from ..convergence.run import Run
from ..migration import comparison, document, report
from ..migration.kind import KINDS
from ..migration.side import side_of
from ..program import display
from ..program.language import address
from ..program.mistakes import CHANGED, Mistake
from ..program.script import read

# The options that two configurations have, and a change has not.
_OF_TWO = (("steps", "--steps"), ("feeds", "--feeds"))


def parser() -> argparse.ArgumentParser:
    """The words of the command line."""
    made = what_if.parser()
    made.description = (
        "What a change does: plays BASE until all queues are empty, then CHANGE, any commands, until they are empty "
        "again, and reports what differs, router by router. With two folders of configurations, or with --new, BASE "
        "and the other one are two networks. Each converges from nothing, and what differs is shown with the lines of the "
        "files that made it.")
    made.epilog = (
        "Exit status: 0 nothing changed; 1 something did, a line was left out that may decide a route, or it does not "
        "converge; 2 a mistake, as a line that is refused.")
    made.add_argument("--new", metavar="NEW", help=(
        "compare BASE with NEW, each a script or a folder of configurations of FRR or BIRD; there is no CHANGE then"))
    made.add_argument("--from", dest="kind", choices=KINDS, help=(
        "whose configurations folders have; without it their files say it"))
    made.add_argument("--feeds", metavar="FILE", help=(
        "play these commands behind BASE and behind NEW: what neighbours without a file send; - is standard input"))
    made.add_argument("--steps", action="store_true", help=(
        "also play the commands that lead from BASE to NEW, and report what is lost or leaked in between"))
    return made


def main(words: Optional[List[str]] = None) -> int:
    """The tool."""
    chosen = parser().parse_args(words)
    new = _new(chosen)
    return _change(chosen) if new is None else _two(chosen, new)


def _new(chosen: argparse.Namespace) -> Optional[str]:
    """The other network, where one is given; nothing where a change is. Mistake where it is not clear which."""
    if chosen.new is not None:
        if chosen.change is not None:
            raise Mistake("`%s` and --new %s: give a CHANGE, or a NEW network" % (chosen.change, chosen.new))
        return str(chosen.new)
    if chosen.change is None:
        raise Mistake("a CHANGE is expected behind %s, or `--new NEW`" % chosen.base)
    if os.path.isdir(chosen.change):
        if os.path.isdir(chosen.base):
            return str(chosen.change)
        raise Mistake("it is a folder, and no commands; write `--new %s` to compare %s with it" % (
            chosen.change, chosen.base), chosen.change)
    return None


# A change

def _asked(base: Run, asked: List[Tuple[str, str]]) -> List[Tuple[str, str]]:
    """The packets that are asked for, by addresses."""
    names, found = base.network.names, []
    for router, to in asked:
        found.append((names.address_of(router), names.address_of(to)))
        if not base.network.is_router(found[-1][0]):
            raise Mistake("--trace %s %s: there is no router %s in the base" % (router, to, router))
        if address(found[-1][1]) is None:
            raise Mistake("--trace %s %s: an address is expected, as 198.51.100.1" % (router, to))
    return found


def _change(chosen: argparse.Namespace) -> int:
    """Plays a change in one network."""
    if os.path.isdir(chosen.base):
        raise Mistake("it is a folder, and %s none; convert it to a script first, or give two folders" % chosen.change,
                      chosen.base)
    wrong = [option for name, option in _OF_TWO if getattr(chosen, name)] + (["--from"] if chosen.kind else [])
    if wrong:
        raise Mistake("%s is of two networks; give two folders, or `--new NEW` in the place of %s" % (
            wrong[0], chosen.change))
    base, converged = converged_base(read(chosen.base), chosen)
    with base:
        asked = _asked(base, chosen.trace)
        after, watch, done = changed(base, read(chosen.change), chosen)
        with after:
            found = broken(chosen.invariants, base, after)
            outcome = Outcome(compare(base, after, asked), watch, converged, done, found)
    if chosen.json:
        sys.stdout.write(_json(outcome, chosen))
    else:
        display.show(text_of(outcome, chosen.all))
    return CHANGED if outcome.is_changed else 0


def _json(outcome: Outcome, chosen: argparse.Namespace) -> str:
    """The effect of the change for a program. What makes it is imported here: `--help` needs none."""
    from ..api import documents
    from ..api.effect import effect_of
    return documents.text_of(documents.effect(chosen.base, chosen.change, effect_of(outcome), outcome.network.names))


# Two networks

def _two(chosen: argparse.Namespace, new: str) -> int:
    """Compares two networks."""
    if chosen.each:
        raise Mistake("--each is of a CHANGE; --steps plays what leads from %s to %s" % (chosen.base, new))
    feeds = read(chosen.feeds) if chosen.feeds else []
    sides = [side_of(path, chosen.kind) for path in (chosen.base, new)]
    found = comparison.compared(sides[0], sides[1], feeds, chosen, chosen.trace)
    report.print_left_out(found, chosen.all)
    if chosen.json:
        sys.stdout.write(_json_of_two(found))
    else:
        display.show(report.text_of(found, chosen.all))
    return CHANGED if found.is_changed else 0


def _json_of_two(found: comparison.Comparison) -> str:
    """The comparison for a program."""
    from ..api import documents
    from ..api.effect import effect_of
    effect = effect_of(found.outcome)
    effect = dataclasses.replace(effect, notes=effect.notes + document.notes_of(found), is_changed=found.is_changed)
    return documents.text_of(documents.effect(found.before.path, found.after.path, effect, found.outcome.network.names,
                                              **document.fields_of(found)))
