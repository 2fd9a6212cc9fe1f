"""FRR configurations as a script."""
from __future__ import annotations

import argparse
from typing import List, Optional

from ..importers.common.report import add_unsaid, report
from ..importers.frr.translation import FrrTranslation, configs_in, network_of
from ..program import output
from ..program.mistakes import WRONG


def parser() -> argparse.ArgumentParser:
    """The words of the command line."""
    made = argparse.ArgumentParser(prog="from-frr", description=(
        "Writes FRR configurations as a script: one file a router, or a folder a router with frr.conf, or with "
        "bgpd.conf, zebra.conf, ospfd.conf beside each other. "
        "A router is named by its router-id, and a neighbor by any of its addresses is that router; one that no file "
        "belongs to is a virtual peer, to be fed. "
        "Two interfaces in one subnet are a link. docs/reference/frr.md says what is taken over."),
        epilog="What is not taken over is reported on standard error, as `FILE:LINE: not taken over: ..` with what comes "
        "of it; the last line counts those that decide no route. "
               "Exit status: 0 nothing was left out that may decide a route; 1 the script is written, and something "
               "was; 2 a mistake, and nothing is written.")
    made.add_argument("directory", metavar="DIRECTORY", help="the files, or a folder a router")
    made.add_argument("-o", dest="out", metavar="FILE", help="write to this file, and not to standard output")
    made.add_argument("--strict", action="store_true", help="treat each reported line as an error")
    add_unsaid(made)
    made.add_argument("--all", action="store_true", dest="lists_all", help="report every line, and whole lists")
    return made


def main(words: Optional[List[str]] = None) -> int:
    """The tool."""
    chosen = parser().parse_args(words)
    configs, told = configs_in(chosen.directory)
    network = network_of(configs, told, chosen.directory)
    translation = FrrTranslation(network, chosen.unsaid)
    status = report(network, told, chosen.strict, chosen.lists_all)
    if status != WRONG:
        output.write("".join(line + "\n" for line in translation.lines), chosen.out)
    return status
