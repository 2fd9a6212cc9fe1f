"""Writes a script with the deliveries that empty all queues, after each command or at the end; or finds stable states."""
from __future__ import annotations

import argparse
import sys
from typing import List, Optional

from ..convergence import all_states
from ..convergence.delivery_script import converged
from ..convergence.orders import add_order, order_of
from ..convergence.run import Run, not_converged
from ..convergence.stable_states import look_for, text_of
from ..convergence.tables_by_prefix import tables_of
from ..program import display, output
from ..program.language import ended
from ..program.mistakes import CHANGED, Mistake
from ..program.script import read


def parser() -> argparse.ArgumentParser:
    """The words of the command line."""
    made = argparse.ArgumentParser(prog="converge", description=(
        "Writes the script with the deliveries that empty all queues, after each command or at the end. Where they never are empty in one "
        "order, others are tried, and it is told which converges."),
        epilog="Exit status: 0; 1 where the network converges in no order that was tried, and then nothing is written (with --states, where "
               "some random order does not converge; with --stable, where there is no stable state, or one is not reached, or the search was "
               "cut off); 2 a mistake, as a line that is refused and is not marked so. A delivery of the script itself that finds nothing "
               "left is left out.")
    made.add_argument("script", metavar="SCRIPT", help="the script; - is standard input")
    made.add_argument("--at-end", action="store_true", help="deliver at the end only")
    add_order(made)
    made.add_argument("--states", type=int, metavar="N", help="write no script, but which stable states N random orders end in, and how often")
    made.add_argument("--stable", action="store_true", help=(
        "write no script, but all stable states of the network at the end of the script, for each prefix apart, and by how many deliveries "
        "each is reached; deliveries of the script are left out"))
    made.add_argument("--prefix", metavar="P", help="with --stable: only the states for this prefix")
    made.add_argument("--state", type=int, metavar="N", help=(
        "with --stable: write the script that reaches the state of this number; it has the lines of one prefix"))
    made.add_argument("--bound", type=int, metavar="N", help=(
        "with --stable: at most so many candidate routes, and steps of the search, for each prefix (%d)" % all_states.BOUND))
    made.add_argument("--most", type=int, metavar="N", help=(
        "stop after so many deliveries at one place (ten thousand and more, by the size of the network)"))
    made.add_argument("--all", action="store_true", help="tell all that keep changing where the network does not converge, and not only the first ones")
    made.add_argument("--by-prefix", type=int, metavar="N", help=(
        "write no script, but the chosen routes of all routers as `routes` replies them: the network is played with N of its prefixes at "
        "a time, by several processes"))
    made.add_argument("--jobs", type=int, metavar="N", help="so many processes of --by-prefix (as many as there are processors)")
    made.add_argument("--json", action="store_true", help="tell what --stable, --states or --by-prefix finds as JSON")
    made.add_argument("-o", dest="out", metavar="FILE", help="write to this file, and not to standard output")
    return made


def _states(chosen: argparse.Namespace) -> int:
    """The answer to --states."""
    if chosen.states < 1 or chosen.order not in (None, "random") or chosen.by_router or chosen.seed is not None:
        raise Mistake("--states %d: a number of at least 1 is expected, and no order, since all are random" % chosen.states)
    found = look_for(read(chosen.script), chosen.states, chosen.at_end, chosen.most)
    if chosen.json:
        from ..api import documents
        output.write(documents.text_of(documents.stable_states(chosen.script, found)), chosen.out)
    else:
        display.write(text_of(found), chosen.out)
    return CHANGED if found.endless else 0


def _stable(chosen: argparse.Namespace) -> int:
    """The answer to --stable."""
    if chosen.bound is not None and chosen.bound < 1:
        raise Mistake("--bound %d: a number of at least 1 is expected" % chosen.bound)
    lines = read(chosen.script)
    found = all_states.find(lines, chosen.prefix, chosen.bound)
    if chosen.state is not None:
        written = all_states.script_of(lines, found, chosen.state)
        output.write_bytes("".join(map(ended, written)).encode("latin-1"), chosen.out)
        return 0
    if found.left_out:
        print("%s: %d deliveries of its own were left out" % (chosen.script, found.left_out), file=sys.stderr)
    if chosen.json:
        from ..api import documents
        output.write(documents.text_of(documents.all_stable_states(chosen.script, found)), chosen.out)
    else:
        display.write(all_states.text_of(found), chosen.out)
    return 0 if all(each.is_whole for each in found.prefixes) else CHANGED


def _tables(chosen: argparse.Namespace) -> int:
    """The answer to --by-prefix."""
    if chosen.jobs is not None and chosen.jobs < 1:
        raise Mistake("--jobs %d: a number of at least 1 is expected" % chosen.jobs)
    tables = tables_of(read(chosen.script), chosen)
    for text in tables.endless:
        print("%s: %s" % (chosen.script, text), file=sys.stderr)
    if tables.endless:
        return CHANGED
    if chosen.json:
        from ..api import documents
        output.write(documents.text_of(documents.tables(chosen.script, tables)), chosen.out)
    else:
        output.write_bytes(tables.content(), chosen.out)
    return 0


def _check(chosen: argparse.Namespace) -> None:
    """Raises Mistake where options do not go together."""
    if chosen.by_prefix is None and chosen.jobs is not None or chosen.by_prefix is not None and chosen.states is not None:
        raise Mistake("--jobs is for --by-prefix, and that goes not with --states")
    if chosen.json and not chosen.stable and chosen.by_prefix is None and chosen.states is None:
        raise Mistake("--json is for --stable, --states and --by-prefix; what is written else is a script")
    of_stable = [name for name in ("prefix", "state", "bound") if getattr(chosen, name) is not None]
    if of_stable and not chosen.stable:
        raise Mistake("--%s is for --stable: add that" % of_stable[0])
    others = ["at_end", "order", "by_router", "seed", "states", "most", "all", "by_prefix"]
    given = [name.replace("by_router", "router").replace("_", "-") for name in others
             if getattr(chosen, name) not in (None, False)]
    if chosen.stable and given:
        raise Mistake("--%s goes not with --stable: leave one of them out" % given[0])
    if chosen.json and chosen.state is not None:
        raise Mistake("--json goes not with --state, which writes a script")


def main(words: Optional[List[str]] = None) -> int:
    """The tool."""
    chosen = parser().parse_args(words)
    _check(chosen)
    if chosen.stable:
        return _stable(chosen)
    if chosen.by_prefix is not None:
        return _tables(chosen)
    if chosen.states is not None:
        return _states(chosen)
    with Run(order_of(chosen), chosen.most, tries_others=True) as run:
        written, endless = converged(run, read(chosen.script), chosen.at_end)
        names = run.network.names
    if endless:
        print("%s: %s" % (chosen.script, not_converged(endless, names, chosen.all)), file=sys.stderr)
        return CHANGED
    if written.left_out:
        print("%s: %d deliveries of its own found nothing left, and were left out" % (chosen.script, written.left_out), file=sys.stderr)
    output.write_bytes("".join(map(ended, written.lines)).encode("latin-1"), chosen.out)
    return 0
