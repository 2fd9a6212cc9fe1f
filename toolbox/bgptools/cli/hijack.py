"""Who is captured by hijacks in a graph of ASes: pairs of victim and attacker, played one by one."""
from __future__ import annotations

import argparse
import hashlib
import sys
from typing import List, Optional

from ..hijack.attack import KINDS
from ..hijack.deployment import deployment_of
from ..hijack.page import page_of
from ..hijack.pairs import drawn_pairs, pairs_in
from ..hijack.pool import play_here
from ..hijack.results_file import Results
from ..hijack.study import Study
from ..hijack.table import Table, csv_of, json_of, text_of
from ..importers.common.sources import add_words, named
from ..importers.relationships.caida import provider_loop, relations
from ..program import display, location, output, provenance
from ..program.mistakes import CHANGED, WRONG, Mistake
from ..program.process_pool import processors

DEPLOYED = "AS,.. or top:N, those with the most relationships, or share:P:SEED, this part of all, drawn"


def parser() -> argparse.ArgumentParser:
    """The words of the command line."""
    made = argparse.ArgumentParser(prog="hijack", description=(
        "Lets attackers hijack prefixes of victims in a graph of ASes, each pair on its own, and tells whom each "
        "captures: whose packets to the victim end at the attacker, and whose route leads there. Policies are those of "
        "from-as-rel. The program plays the ASes above victim and attacker; all others follow by one decision each."),
        epilog="Exit status: 0 nobody is captured; 1 somebody is; 2 a mistake, as a pair that is too large to be played: "
               "the others are told all the same.")
    made.add_argument("file", metavar="FILE", help=(
        "the relationships, as of from-as-rel; - is standard input; a name that ends with .gz or .bz2 is unpacked"))
    made.add_argument("--kind", choices=KINDS, required=True, help=(
        "same: the attacker originates the prefix, too; longer: a longer prefix inside it; forged: it advertises the "
        "prefix as if the victim were its neighbour; leak: it advertises a provider's or peer's route to all"))
    group = made.add_argument_group("pairs, by one of")
    group.add_argument("--pairs", metavar="PAIRS", help=(
        "a file with a line VICTIM ATTACKER, or VICTIM,ATTACKER, for each"))
    group.add_argument("--count", type=int, metavar="N", help="so many different pairs, drawn")
    group.add_argument("--seed", type=int, metavar="S", help=(
        "what --count draws by: the same seed, the same pairs (1)"))
    group = made.add_argument_group("filters, of which an AS may have both")
    group.add_argument("--rov", metavar="ASES", default="", help=(
        "these ASes validate origins: " + DEPLOYED))
    group.add_argument("--peerlock", metavar="ASES", default="", help=(
        "these ASes deny from customers a path with an AS that has customers and no provider; the same forms"))
    group = made.add_argument_group("forms")
    group.add_argument("--json", action="store_true", help="tell it as JSON, and not as a table")
    group.add_argument("--csv", metavar="FILE", help="write all pairs to this file as CSV, too")
    group.add_argument("--page", metavar="FILE", help="write a page with plots to this file, too")
    group.add_argument("-o", dest="out", metavar="FILE", help="write to this file, and not to standard output")
    _add_ways(made)
    add_words(made)
    return made


def _add_ways(made: argparse.ArgumentParser) -> None:
    made.add_argument("--played", choices=("above", "all"), default="above", help=(
        "above: as told above; all: the program plays all ASes that have customers, to the same result (above)"))
    made.add_argument("--jobs", type=int, metavar="N", help="work by N processes (as many as there are processors)")
    made.add_argument("--results", metavar="FILE", help=(
        "write each result to this file as it comes, a line of JSON each"))
    made.add_argument("--resume", action="store_true", help="go on with the file of --results")


def _check(chosen: argparse.Namespace) -> None:
    """Ends with a mistake where words do not go together."""
    for is_wrong, text in (
            ((chosen.pairs is None) == (chosen.count is None), "which pairs? Name one of --pairs and --count"),
            (chosen.seed is not None and chosen.count is None, "--seed is for --count"),
            (chosen.resume and chosen.results is None, "--resume wants --results FILE, to go on with it"),
            (chosen.file == "-" == chosen.pairs, "standard input has either the relationships or the pairs")):
        if is_wrong:
            raise Mistake(text)
    for name in ("count", "jobs"):
        value = getattr(chosen, name)
        if value is not None and value < 1:
            raise Mistake("--%s %d: a number of at least 1 is expected" % (name, value))
    if chosen.seed is not None and not 0 <= chosen.seed < 2 ** 64:
        raise Mistake("--seed %d: 0 to 18446744073709551615 is expected" % chosen.seed)


def _study(chosen: argparse.Namespace) -> Study:
    """The study that is asked for."""
    digest = hashlib.sha256()
    known = relations(chosen.file, chosen.most_unpacked, digest)
    loop = provider_loop(known)
    if loop:
        raise Mistake("AS %s, each a provider of the next one, are a loop, and more than one outcome may exist: write "
                      "who of two is the provider the other way, or 0 for peers" % " > ".join(
                          map(str, loop + loop[:1])), named(chosen.file))
    seed = None if chosen.count is None else 1 if chosen.seed is None else chosen.seed
    pairs = pairs_in(chosen.pairs, known, chosen.kind) if seed is None else \
        drawn_pairs(known, chosen.count, seed, chosen.kind)
    rov, peerlock = (deployment_of(known, "--" + name, getattr(chosen, name)) for name in ("rov", "peerlock"))
    return Study(named(chosen.file), digest.hexdigest(), known, chosen.kind, pairs, seed, rov, peerlock,
                 chosen.played == "all")


def main(words: Optional[List[str]] = None) -> int:
    """The tool."""
    chosen = parser().parse_args(words)
    _check(chosen)
    study = _study(chosen)
    program = provenance.of(location.program())
    known = Results(chosen.results, study, chosen.resume, program)
    try:
        play_here(study, known, chosen.jobs or processors())
    finally:
        known.close()
    table = Table(study, [known.known[number] for number in range(len(study.pairs))], program)
    for path, form in ((chosen.csv, csv_of), (chosen.page, page_of)):
        if path is not None:
            output.write(form(table), path)
    if chosen.json:
        output.write(json_of(table), chosen.out)
    else:
        display.write(text_of(table), chosen.out)
    for row in table.failed:
        print("pair %d %d: %s" % (*row.pair, row.outcome.mistake), file=sys.stderr)
    return WRONG if table.failed else CHANGED if table.is_any else 0
