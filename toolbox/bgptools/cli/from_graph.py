"""A graph in GraphML or GML, as of the Topology Zoo, as a script of one AS."""
from __future__ import annotations

import argparse
from typing import List, Optional

from ..importers.common.omissions import LeftOut
from ..importers.common.sources import add_words
from ..importers.graphs.files import graph_of
from ..importers.graphs.script import Wanted, Writer
from ..program.language import number
from ..program.mistakes import Mistake


def parser() -> argparse.ArgumentParser:
    """The words of the command line."""
    made = argparse.ArgumentParser(prog="from-graph", description=(
        "Writes a graph in GraphML or GML, as the Topology Zoo has them, as a script: a router a node, all in one AS, "
        "a link for each two that edges join, sessions as a full mesh or by reflectors."),
        epilog="What is not taken over is reported on standard error, as `FILE:LINE: not taken over: ..`; the last line "
        "counts attributes that decide no route. A router's address is 10.0.h.l, by its place in the file. "
               "Exit status: 0 nothing was left out that may decide a route; 1 the script is written, and something "
               "was; 2 a mistake, and nothing is written.")
    made.add_argument("file", metavar="FILE",
                      help="the graph; - is standard input; a name that ends with .gz or .bz2 is unpacked")
    made.add_argument("--as", dest="asn", default="64512", metavar="N", help="the AS of all routers (64512)")
    costs = made.add_mutually_exclusive_group()
    costs.add_argument("--cost", metavar="ATTRIBUTE",
                       help="the attribute of edges that is the cost of a link; else it is 1")
    costs.add_argument("--speed", action="store_true", help="costs by LinkSpeedRaw, or LinkSpeed and LinkSpeedUnits: "
                       "100 Gbit/s by the speed, at least 1")
    made.add_argument("--reflectors", metavar="NUMBER", help="so many route reflectors, the nodes with the most links, "
                      "or these, by names with commas; without it all routers have sessions with each other")
    made.add_argument("--external", nargs=2, action="append", default=[], metavar=("NAME", "N"),
                      help="an external neighbour in AS N at this node, a virtual peer, to be fed")
    made.add_argument("--origin", nargs=2, action="append", default=[], metavar=("NAME", "P"),
                      help="this node originates the prefix")
    add_words(made)
    made.add_argument("-o", dest="out", metavar="FILE", help="write to this file, and not to standard output")
    made.add_argument("--strict", action="store_true", help="treat each reported line as an error")
    return made


def main(words: Optional[List[str]] = None) -> int:
    """The tool."""
    chosen = parser().parse_args(words)
    asn = number(chosen.asn, 1)
    if asn is None:
        raise Mistake("--as %s: an AS number is expected" % chosen.asn)
    left = LeftOut()
    graph = graph_of(chosen.file, left, chosen.most_unpacked)
    writer = Writer(graph, Wanted(asn, chosen.cost, chosen.speed, chosen.reflectors, chosen.external, chosen.origin))
    return left.write(writer.lines(), graph.file, chosen.out, chosen.strict, "attributes")
