"""What is wrong in a network as it is: leaks, loops, black holes, missing routes, sessions that are down, and invariants."""
from __future__ import annotations

import argparse
import sys
from typing import List, Optional

from ..check.checks import Asked, check
from ..check.finding import KINDS
from ..check.report import json_of, text_of
from ..program import display
from ..program.mistakes import CHANGED, Mistake
from ..program.process_pool import processors
from ..program.script import read


def parser() -> argparse.ArgumentParser:
    """The words of the command line."""
    made = argparse.ArgumentParser(prog="check", description=(
        "Converges SCRIPT, and tells what is wrong in the network, the most serious first: what does not converge, "
        "leaks, broken invariants, loops, black holes, next hops without a way, partitions, missing routes, sessions "
        "that are down, several stable states, single points of failure. Notes follow: routes by one session alone, and "
        "transit of which no role says whether it is meant."),
        epilog="Exit status: 0 nothing was found, or notes alone; 1 something was, with --strict notes too; 2 a mistake, "
               "as a line that is refused, or one that is no invariant.")
    made.add_argument("script", metavar="SCRIPT", help="the script of the network; it needs no deliveries; - is standard input")
    made.add_argument("--invariants", metavar="FILE", help="what has to hold, too: an invariant a line, and roles of ASes")
    made.add_argument("--failures", action="store_true", help=(
        "look for single points of failure, too: each link, router and session fails, as in sweep"))
    made.add_argument("--orders", type=int, metavar="N", default=3, help=(
        "so many random orders of delivery are tried, beside fair and router (3)"))
    made.add_argument("--strict", action="store_true", help="notes count as findings")
    made.add_argument("--ignore", metavar="KIND", action="append", default=[], choices=tuple(KINDS), help=(
        "do not tell findings of this kind: %s; may be given again" % ", ".join(KINDS)))
    made.add_argument("--all", action="store_true", help="list all, and not only the first ones of a kind")
    made.add_argument("--json", action="store_true", help="tell it as JSON")
    made.add_argument("--most", type=int, metavar="N", help="stop after so many deliveries")
    made.add_argument("--jobs", type=int, metavar="N", help=(
        "so many processes of --failures (as many as there are processors)"))
    return made


def main(words: Optional[List[str]] = None) -> int:
    """The tool."""
    chosen = parser().parse_args(words)
    for name, least in (("orders", 0), ("jobs", 1), ("most", 1)):
        value = getattr(chosen, name)
        if value is not None and value < least:
            raise Mistake("--%s %d: a number of at least %d is expected" % (name, value, least))
    if chosen.jobs and not chosen.failures:
        raise Mistake("--jobs is for --failures")
    if chosen.script == "-" == chosen.invariants:
        raise Mistake("standard input has either the script or the invariants")
    found = check(Asked(chosen.script, read(chosen.script), chosen.invariants, chosen.most, chosen.orders,
                        chosen.failures, chosen.jobs or processors()))
    found.found = [each for each in found.found if each.kind not in chosen.ignore]
    if chosen.json:
        sys.stdout.write(json_of(found))
    else:
        display.show(text_of(found, chosen.all))
    return CHANGED if found.wrong or chosen.strict and found.notes else 0
