"""Whether real routers choose the routes of a simulated network: saved answers compared with its tables."""
from __future__ import annotations

import argparse
import sys
from typing import List, Optional

from ..convergence.orders import add_order, order_of
from ..convergence.run import Run, not_converged
from ..live import report
from ..live.answers import answers_in
from ..live.comparison import compared
from ..migration.kind import KINDS
from ..migration.side import side_of
from ..program import display, documents
from ..program.mistakes import CHANGED, Mistake
from ..program.script import read


def parser() -> argparse.ArgumentParser:
    """The words of the command line."""
    made = argparse.ArgumentParser(prog="compare-live", description=(
        "Compares the routes that real routers chose with those of a simulated network. ANSWERS is a folder of files, "
        "each named after its router, with what FRR answers to `show ip bgp json`, or `show ip bgp detail json`, or BIRD "
        "2 to `show route all`. NETWORK is a script, or a folder of configurations of FRR or BIRD. It converges first."),
        epilog="Exit status: 0 all routes agree; 1 some differ, or are of a router or prefix that the network does not "
               "have; 2 a mistake.")
    made.add_argument("answers", metavar="ANSWERS", help="the folder of saved answers, a file a router")
    made.add_argument("network", metavar="NETWORK", help="a script, or a folder of configurations")
    made.add_argument("--from", dest="kind", choices=KINDS, help=(
        "whose configurations the folder has; without it its files say it"))
    made.add_argument("--feeds", metavar="FILE", help=(
        "play these commands behind NETWORK: what neighbours without a file send; - is standard input"))
    made.add_argument("--all", action="store_true", help="list all, and not only the first of much of a kind")
    made.add_argument("--json", action="store_true", help="tell it as JSON")
    add_order(made)
    made.add_argument("--most", type=int, metavar="N", help="stop after so many deliveries")
    return made


def main(words: Optional[List[str]] = None) -> int:
    """The tool."""
    chosen = parser().parse_args(words)
    live, side = answers_in(chosen.answers), side_of(chosen.network, chosen.kind)
    for text in side.texts(side.told, chosen.all):
        print(text, file=sys.stderr)
    with Run(order_of(chosen), chosen.most, tries_others=True) as run:
        run.play([*side.lines, *(read(chosen.feeds) if chosen.feeds else [])])
        done = run.converge()
        if not done.is_converged:
            raise Mistake("it does not converge: " + not_converged(done, run.network.names), chosen.network)
        found = compared(live, run, side.sources.network.owners if side.sources else {})
        names = run.network.names
    if chosen.json:
        sys.stdout.write(documents.text_of(report.document_of(chosen.answers, chosen.network, found, names)))
    else:
        display.show(report.text_of(found, names, chosen.all))
    return 0 if found.is_same else CHANGED
