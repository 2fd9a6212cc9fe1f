"""When the chosen route of a router to a prefix changes, while a script is played: as a table, and as a picture."""
from __future__ import annotations

import argparse
import sys
from typing import List, Optional

from ..change import timeline
from ..convergence.orders import add_order, order_of
from ..convergence.run import Run, not_converged
from ..network.configuration import Network
from ..program import display, output
from ..program.language import prefix
from ..program.mistakes import CHANGED, Mistake
from ..program.script import Line, read


def parser() -> argparse.ArgumentParser:
    """The words of the command line."""
    made = argparse.ArgumentParser(prog="timeline", description=(
        "Plays SCRIPT, converges after each command, and tells each time that the chosen route to PREFIX changed: from "
        "whom it is, by which path, and why the one before it is not chosen any more. A comment as "
        "`# time 2026-12-01T12:00:00Z`, as from-mrt writes them, gives the time of what stands behind it; without one, "
        "lines are told."),
        epilog="Feeds and origins of other prefixes are not played, nor are deliveries of the script: all queues are "
               "emptied after each command. Exit status: 0; 1 where the network does not converge, and then it is told "
               "until there; 2 a mistake.")
    made.add_argument("script", metavar="SCRIPT", help="the script; - is standard input")
    made.add_argument("prefix", metavar="PREFIX", help="a prefix, as 10.0.0.0/8")
    made.add_argument("--router", dest="at", metavar="A", help="the router whose choice is told, an address or a name "
                      "(the only one of the script)")
    told = made.add_mutually_exclusive_group()
    told.add_argument("--json", action="store_true", help="tell it as JSON")
    told.add_argument("--csv", action="store_true", help="tell it as CSV")
    made.add_argument("--picture", metavar="FILE.svg", help="draw it, too: a row for each neighbouring AS, and bars "
                      "over the time")
    made.add_argument("--most", type=int, metavar="N", help="stop after so many deliveries at one place")
    add_order(made, has_word=False)
    return made


def _router(lines: List[Line], word: Optional[str]) -> str:
    """The router that is asked for, or the only one; raises Mistake where there is no such."""
    network = Network()
    for line in lines:
        if line.is_command and line.words[0] == "router" and len(line.words) == 3:
            network.take(line.words)
        network.names.take(line.text)
    known = network.routers()
    found = known[0] if word is None and len(known) == 1 else network.names.address_of(word or "")
    if found not in known:
        some = ", ".join(map(network.names.shown, known[:8])) or "none"
        raise Mistake("--router A is expected: the script has %s" % some if word is None else
                      "--router %s: there is no such router in the script; it has %s" % (word, some))
    return found


def _picture(found: timeline.Timeline, path: str) -> None:
    from ..picture.timeline import svg_of
    output.write(svg_of(found), path)


def main(words: Optional[List[str]] = None) -> int:
    """The tool."""
    chosen = parser().parse_args(words)
    if prefix(chosen.prefix) is None:
        raise Mistake("`%s` is not a prefix with no bit set behind its length, as 10.0.0.0/8" % chosen.prefix)
    if chosen.picture is not None and not chosen.picture.endswith(".svg"):
        raise Mistake("--picture %s: a name that ends with .svg is expected" % chosen.picture)
    lines = read(chosen.script)
    router = _router(lines, chosen.at)
    with Run(order_of(chosen), chosen.most, tries_others=True) as run:
        found = timeline.timeline(run, timeline.part_for(lines, chosen.prefix), router, chosen.prefix)
        if chosen.picture is not None:
            _picture(found, chosen.picture)
        if chosen.json:
            from ..api import documents
            sys.stdout.write(documents.text_of(documents.timeline(chosen.script, found, run.network)))
        elif chosen.csv:
            sys.stdout.write(timeline.csv_of(found))
        else:
            display.show(timeline.text_of(found, run))
        if found.endless:
            print("%s: %s" % (chosen.script, not_converged(found.endless, run.network.names)), file=sys.stderr)
    return CHANGED if found.endless else 0
