"""What each change of a family does on its own, the worst first: failures, pairs, hijacks, files, random orders."""
from __future__ import annotations

import argparse
import sys
from typing import Callable, Dict, List, Optional

from ..program import display, libraries, location, output, provenance
from ..program.mistakes import CHANGED, WRONG, Mistake
from ..program.process_pool import processors
from ..sweep import cluster, families, table as sweep_table
from ..sweep.effect_file import Results
from ..sweep.executor import about, rows_of
from ..sweep.local_pool import play_here
from ..sweep.page import page_of
from ..sweep.plan import sweep_of
from ..sweep.table import Table

FORMS: Dict[str, Callable[[Table], str]] = {"json": sweep_table.json_of, "csv": sweep_table.csv_of, "html": page_of}


def parser() -> argparse.ArgumentParser:
    """The words of the command line."""
    made = argparse.ArgumentParser(prog="sweep", description=(
        "Plays BASE until all queues are empty, and then each change of a family on its own; tells in numbers what "
        "each does, the worst first. The numbers are those of what-if: routes of all routers that are lost, moved and "
        "gained, packets that end in new black holes and loops, external neighbours told otherwise, sessions that go "
        "down, and messages until it is quiet."),
        epilog="Exit status: 0 no change loses a route or a packet, or keeps the network from converging; 1 one does; "
               "2 a mistake, as a change with a line that is refused: the others are told all the same.")
    made.add_argument("base", metavar="BASE", help="the script of the network; it needs no deliveries")
    _add_families(made)
    _add_forms(made)
    _add_ways(made)
    return made


def _add_families(made: argparse.ArgumentParser) -> None:
    group = made.add_argument_group("changes, of which any may be named")
    group.add_argument("--fail-links", action="store_true", help="each link fails")
    group.add_argument("--fail-routers", action="store_true", help=(
        "each router fails: its links do, and its sessions are stopped"))
    group.add_argument("--fail-sessions", action="store_true", help="each session is stopped")
    group.add_argument("--pairs", action="store_true", help=(
        "any two of the failures that are named, at once; without --fail-..: any two links"))
    group.add_argument("--sample", type=int, metavar="N", help="so many of the pairs, drawn by lot")
    group.add_argument("--seed", type=int, metavar="S", help=(
        "the lots of --sample: the same number gives the same pairs (1)"))
    group.add_argument("--hijack", metavar="PREFIX", action="append", default=[], help=(
        "each AS in turn originates the prefix, at its router of the lowest address; may be given again"))
    group.add_argument("--changes", metavar="FOLDER", help="each file of the folder is a change, any commands")
    group.add_argument("--orders", type=int, metavar="N", help=(
        "BASE is converged in N random orders: which stable states are there"))


def _add_forms(made: argparse.ArgumentParser) -> None:
    told = made.add_mutually_exclusive_group()
    told.add_argument("--json", action="store_true", help="tell it as JSON")
    told.add_argument("--csv", action="store_true", help="tell it as CSV")
    told.add_argument("--html", action="store_true", help=(
        "tell it as one page: a table to sort, and which change moves what at which router, with its what-if"))
    made.add_argument("-o", dest="out", metavar="FILE", help="write to this file, and not to standard output")
    made.add_argument("--results", metavar="FILE", help=(
        "write each result to this file as it comes, a line of JSON each"))
    made.add_argument("--resume", action="store_true", help="go on with the file of --results")


def _add_ways(made: argparse.ArgumentParser) -> None:
    made.add_argument("--order", choices=("fair", "router"), help=(
        "in which order messages are delivered, as of converge (fair)"))
    made.add_argument("--most", type=int, metavar="N", help="stop after so many deliveries")
    made.add_argument("--jobs", type=int, metavar="N", help="work by N processes (as many as there are processors)")
    made.add_argument("--by-prefix", type=int, metavar="N", help=(
        "play the network with N of its prefixes at a time, and put the numbers together"))
    made.add_argument("--scheduler", metavar="ADDRESS", help=(
        "work by the Dask cluster of this scheduler, as tcp://10.0.0.1:8786"))
    made.add_argument("--program", metavar="PATH", help=(
        "where the program is on the workers of --scheduler (where the tools find it there)"))


def _check(chosen: argparse.Namespace) -> None:
    """Ends with a mistake where words do not go together."""
    singles = any(getattr(chosen, name) for name in families.FAILURES)
    has_any = singles or chosen.pairs or chosen.hijack or chosen.changes or chosen.orders is not None
    for is_wrong, text in (
            (not has_any, "which changes? Name any of --fail-links, --fail-routers, --fail-sessions, --pairs, "
                          "--hijack, --changes, --orders"),
            (chosen.sample is not None and not chosen.pairs, "--sample is for --pairs"),
            (chosen.seed is not None and chosen.sample is None, "--seed is for --sample"),
            (chosen.resume and chosen.results is None, "--resume wants --results FILE, to go on with it"),
            (chosen.program and not chosen.scheduler, "--program is for --scheduler; here it is PROGRAM="),
            (chosen.jobs and chosen.scheduler, "--jobs is for this machine, and --scheduler for others")):
        if is_wrong:
            raise Mistake(text)
    for name in ("sample", "orders", "jobs", "by_prefix", "most"):
        value = getattr(chosen, name)
        if value is not None and value < 1:
            raise Mistake("--%s %d: a number of at least 1 is expected" % (name.replace("_", "-"), value))


def _tell(table: Table, chosen: argparse.Namespace) -> None:
    """Writes the table in the form that was asked for."""
    form = next((form for name, form in FORMS.items() if getattr(chosen, name)), None)
    if form:
        output.write(form(table), chosen.out)
    else:
        display.write(sweep_table.text_of(table), chosen.out)


def main(words: Optional[List[str]] = None) -> int:
    """The tool."""
    chosen = parser().parse_args(words)
    _check(chosen)
    if chosen.scheduler:
        libraries.need("cluster")
    asked = sweep_of(chosen)
    if not asked.trials:
        raise Mistake("the network has nothing of what is to be changed", chosen.base)
    program = provenance.of(location.program())
    known = Results(chosen.results, about(asked.jobs), chosen.resume, program)
    try:
        if chosen.scheduler:
            cluster.play_by(chosen.scheduler, chosen.program, asked.jobs, known)
        else:
            play_here(asked.jobs, asked.quiet, known, chosen.jobs or processors())
    finally:
        known.close()
    table = Table(chosen.base, asked.trials, rows_of(asked.jobs, known), asked.network.names, program,
                  asked.quiet.loops if asked.quiet else 0)
    for trial, found in (row for row in table.rows if row[1].mistake):
        print("%s: %s" % (trial.title, found.mistake), file=sys.stderr)
    _tell(table, chosen)
    return WRONG if any(found.mistake for _, found in table.rows) else CHANGED if table.is_bad else 0
