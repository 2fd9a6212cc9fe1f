"""An AS relationship file in CAIDA's form, as a script with valley-free policies."""
from __future__ import annotations

import argparse
import hashlib
import sys
from typing import List, Optional, Type

from ..importers.common.sources import add_words, named
from ..importers.relationships import cuts
from ..importers.relationships.caida import Marking, Relations, Writer, asns_of, origins_of, provider_loop, relations
from ..importers.relationships.cone_script import Graph, Interest, cone_of, differences, head, larger_than
from ..program import output
from ..program.language import number
from ..program.line_count import check_length
from ..program.mistakes import CHANGED, DISAGREES, WRONG, Mistake


def parser() -> argparse.ArgumentParser:
    """The words of the command line."""
    made = argparse.ArgumentParser(prog="from-as-rel", description=(
        "Writes an AS relationship file, lines PROVIDER|CUSTOMER|-1 and PEER|PEER|0 as CAIDA publishes them, as a "
        "script: a router an AS, with valley-free policies."), epilog=(
            "AS 3356 has the router 10.13.28.1. Exit status: 0; 1 the script is written, and lacks relationships that "
            "can change a route, which standard error tells; 2 a mistake, and nothing is written; 3 --check found "
            "another route, and nothing is written."))
    made.add_argument("file", metavar="FILE", help=(
        "the relationships; - is standard input; a name that ends with .gz or .bz2 is unpacked"))
    made.add_argument("--about", metavar="AS,..", help=(
        "write the part that decides the routes of these origins exactly: the ASes above them and above the observers"))
    made.add_argument("--observers", metavar="AS,..", help=(
        "with --about, the ASes whose routes matter, or `all`: then ASes are left out that decide nothing for the "
        "others (all)"))
    made.add_argument("--check", metavar="SEED", help=(
        "with --about, compare all routes with those of the whole graph, or of a larger part by this number, on the "
        "program"))
    made.add_argument("--leak", metavar="AS,..", help="these ASes advertise all their routes to peers and providers")
    made.add_argument("--core", type=int, metavar="N", help=(
        "keep the N ASes with the most relationships, which is not exact"))
    made.add_argument("--origins", metavar="AS,..", help=(
        "which ASes originate a prefix, or `all`; without it the ten with the fewest customers"))
    made.add_argument("--communities", action="store_true",
                      help="policies that mark what comes in, by communities, and look at the marks of what goes out")
    add_words(made)
    made.add_argument("-o", dest="out", metavar="FILE", help="write to this file, and not to standard output")
    made.add_argument("--all", action="store_true", help=(
        "name all ASes that lose all providers, and not only the first ten"))
    made.add_argument("--strict", action="store_true", help="treat each reported line as an error")
    return made


def main(words: Optional[List[str]] = None) -> int:
    """The tool."""
    chosen = parser().parse_args(words)
    _check_words(chosen)
    digest = hashlib.sha256()
    whole = relations(chosen.file, chosen.most_unpacked, digest)
    graph = Graph(whole, named(chosen.file), digest.hexdigest())
    return _network(graph, chosen) if chosen.about is None else _cone(graph, chosen)


def _check_words(chosen: argparse.Namespace) -> None:
    """Raises Mistake where options do not go together."""
    if chosen.core is not None and chosen.core < 2:
        raise Mistake("--core %d: at least 2 are expected" % chosen.core)
    if chosen.about is not None and (chosen.core is not None or chosen.origins is not None):
        raise Mistake("--about names the origins, and takes the place of --core and --origins: write it without them")
    if chosen.about is None and (chosen.observers is not None or chosen.check is not None):
        raise Mistake("--observers and --check go with --about: write --about ORIGINS, too")
    if chosen.check is not None and number(chosen.check) is None:
        raise Mistake("--check %s: a number is expected, 0 to 4294967295" % chosen.check)


def _leaks(known: Relations, graph: Graph, chosen: argparse.Namespace) -> List[int]:
    return asns_of(known, "--leak", chosen.leak, graph.name) if chosen.leak is not None else []


def _network(graph: Graph, chosen: argparse.Namespace) -> int:
    """The whole graph, or its core, as far as it fits into a network."""
    part = cuts.within_limits(cuts.core(graph.known, chosen.core), graph.name)
    origins, leaks = origins_of(part, chosen.origins, graph.name), _leaks(part, graph, chosen)
    loop = provider_loop(part)
    if loop:
        print("%s: note: AS %s, each a provider of the next one, are a loop; such a network may not converge. Write "
              "who of two is the provider the other way, or 0 for peers" % (
                  graph.name, " > ".join(map(str, loop + loop[:1]))), file=sys.stderr)
    lost = cuts.cut(graph.known, part)
    for line in cuts.told(lost, chosen.all):
        print("%s: %s" % (graph.name, line), file=sys.stderr)
    if lost.changes_routes and chosen.strict:
        print("nothing is written, since --strict treats each reported line as an error", file=sys.stderr)
        return WRONG
    _write(_kind(chosen)(part, origins, graph.known, leaks), graph, chosen,
           "--about ORIGINS or --core N keeps fewer ASes")
    return CHANGED if lost.changes_routes else 0


def _cone(graph: Graph, chosen: argparse.Namespace) -> int:
    """The part that decides the routes of some origins."""
    origins = asns_of(graph.known, "--about", chosen.about, graph.name)
    observers = None if chosen.observers in (None, "all") else asns_of(
        graph.known, "--observers", chosen.observers, graph.name)
    interest = Interest(origins, observers, _leaks(graph.known, graph, chosen))
    part = cone_of(graph, interest)
    writer = _kind(chosen)(part, origins, graph.known, interest.leaks, head(graph, interest, part))
    if chosen.check is not None and not _is_exact(graph, interest, writer, chosen):
        return DISAGREES
    _write(writer, graph, chosen, "--communities has fewer, and so have fewer ASes in --observers")
    return 0


def _kind(chosen: argparse.Namespace) -> Type[Writer]:
    return Marking if chosen.communities else Writer


def _is_exact(graph: Graph, interest: Interest, writer: Writer, chosen: argparse.Namespace) -> bool:
    """Whether the program finds the same routes in a larger part; it is told which, or what differs."""
    larger = larger_than(graph, interest, writer.known, _kind(chosen), int(chosen.check))
    try:
        inside, outside = differences(writer, _kind(chosen)(larger, writer.origins, graph.known, interest.leaks))
    except Mistake as mistake:
        raise Mistake("--check: " + mistake.text, graph.name) from None
    for each in (inside + outside)[:cuts.SHOWN]:
        print("%s: AS %d chooses %s; in the larger part %s" % (
            graph.name, each.asn, "; ".join(each.here) or "none", "; ".join(each.there) or "none"), file=sys.stderr)
    where = "the whole graph" if larger is graph.known else "a part of %d ASes" % len(larger.customers)
    count = len(writer.known.customers)
    print("%s: checked with %s: %d of %d ASes choose other routes, and %d of %d that are decided afterwards" % (
        graph.name, where, len(inside), count, len(outside), len(larger.customers) - count), file=sys.stderr)
    return not inside and not outside


def _write(writer: Writer, graph: Graph, chosen: argparse.Namespace, advice: str) -> None:
    check_length(writer.count(), graph.name, advice)
    output.write("".join(line + "\n" for line in writer.lines()), chosen.out)
