"""The script of a cone: which graph it stands for, whether it fits into a network, and its comparison with a larger
one."""
from __future__ import annotations

import hashlib
import os
import textwrap
from typing import Dict, List, NamedTuple, Optional, Sequence, Tuple, Type

from ...convergence.run import Run, not_converged
from ...program import replies
from ...program.language import escaped
from ...program.line_count import MOST_LINES
from ...program.mistakes import Mistake
from ...program.script import lines_of
from .caida import MOST_LINKS, MOST_ROUTERS, MOST_SESSIONS, Relations, Writer, counted
from .cone import ancestors, cone, without_idle_peerings, without_leaves
from .stub_decision import Path, decisions

# So many observers more has the larger cone that one is compared with, where the whole graph is too large.
MORE = 512
WIDTH = 100


class Interest(NamedTuple):
    """Which routes matter: of prefixes that the origins originate, at the observers (None: at all ASes), where some
    ASes leak. An AS that leaks counts as an origin: routes go up from it."""
    origins: Sequence[int]
    observers: Optional[Sequence[int]] = None
    leaks: Sequence[int] = ()

    @property
    def sources(self) -> List[int]:
        return [*self.origins, *self.leaks]


class Graph(NamedTuple):
    """A graph, its name, and the SHA-256 of its file in hexadecimal digits."""
    known: Relations
    name: str
    digest: str


def cone_of(graph: Graph, interest: Interest) -> Relations:
    """The cone; where all ASes are observers, without more of those that can be decided afterwards, until it fits into
    a network. Raises Mistake where providers are a loop, and where it does not fit."""
    try:
        found = cone(graph.known, interest.sources, interest.observers)
    except Mistake as mistake:
        raise Mistake(mistake.text, graph.name) from None
    above, count = ancestors(graph.known, interest.sources), 0
    while interest.observers is None and too_large(found) and count != len(found.customers):
        count = len(found.customers)
        found = without_idle_peerings(without_leaves(found, above), above)
    fault = too_large(found)
    if fault:
        raise Mistake("the cone has %s; name fewer %s" % (
            fault, "origins" if interest.observers is None else "observers"), graph.name)
    return found


def too_large(known: Relations) -> str:
    """Why a graph does not fit into a network; empty where it does."""
    if len(known.customers) > MOST_ROUTERS:
        return "%d ASes, and a network has at most %d" % (len(known.customers), MOST_ROUTERS)
    if len(known.ties) > MOST_LINKS:
        return "%d relationships, and a network has at most %d links" % (len(known.ties), MOST_LINKS)
    crowded = [asn for asn in known.asns() if known.degree(asn) > MOST_SESSIONS]
    return "" if not crowded else "%d neighbours of AS %d, and a router has at most %d sessions" % (
        known.degree(crowded[0]), crowded[0], MOST_SESSIONS)


def head(graph: Graph, interest: Interest, part: Relations) -> List[str]:
    """The comments that say what a cone stands for, and why it is exact."""
    told = ["origins: " + _listed(interest.origins)]
    if interest.leaks:
        told.append("leaks: " + _listed(interest.leaks))
    told += ["observers: " + ("all ASes; those left out are decided by their providers and peers alone" if
                              interest.observers is None else _listed(interest.observers)),
             "%s and %s stand for %d and %d: what is above an origin or an observer" % (
                 counted(len(part.customers), "AS"), counted(len(part.ties), "relationship"),
                 len(graph.known.customers), len(graph.known.ties)),
             "Exact for prefixes of these origins: a route comes from a customer or a peer only if an origin is below "
             "it, else from a provider; and these are all here. See docs/explanation/cone.md"]
    name = escaped(os.path.basename(graph.name))
    return ["# graph: %s, SHA-256 %s" % (name, graph.digest)] + [line for text in told for line in textwrap.wrap(
        text, WIDTH, initial_indent="# ", subsequent_indent="#   ", break_on_hyphens=False)]


def _listed(asns: Sequence[int]) -> str:
    return "AS " + ", ".join(map(str, sorted(asns)))


def larger_than(graph: Graph, interest: Interest, part: Relations, kind: Type[Writer], seed: int) -> Relations:
    """What a cone is compared with: the whole graph where it fits into a network, else a cone of more observers.

    These are the first ones by the SHA-256 of the seed and their number. Raises Mistake where no larger one fits."""
    if _fits(graph, interest, graph.known, kind):
        return graph.known
    extra = sorted(set(graph.known.customers) - set(part.customers), key=lambda asn: (_lot(seed, asn), asn))
    count = min(MORE, len(extra))
    while count:
        found = cone(graph.known, interest.sources, [*part.customers, *extra[:count]])
        if _fits(graph, interest, found, kind):
            return found
        count //= 2
    raise Mistake("--check: no larger cone fits into a network; name fewer observers", graph.name)


def _lot(seed: int, asn: int) -> bytes:
    return hashlib.sha256(b"%d %d" % (seed, asn)).digest()


def _fits(graph: Graph, interest: Interest, known: Relations, kind: Type[Writer]) -> bool:
    if too_large(known):
        return False
    return kind(known, list(interest.origins), graph.known, interest.leaks).count() <= MOST_LINES


def tables(writer: Writer) -> Dict[int, List[str]]:
    """The routes that each AS chooses once the program has converged, as replies to `routes`; raises Mistake where it
    does not converge."""
    with Run(tries_others=True) as run:
        run.play(lines_of("".join(line + "\n" for line in writer.lines()).encode("utf-8"), "the script"))
        done = run.converge()
        if not done.is_converged:
            raise Mistake("it does not converge: " + not_converged(done, run.network.names))
        asns = writer.known.asns()
        return dict(zip(asns, run.ask("routes " + writer.routers[asn] for asn in asns)))


class Difference(NamedTuple):
    """An AS whose routes differ, as lines of `routes`, or prefixes with paths: by the cone, and in the larger graph."""
    asn: int
    here: List[str]
    there: List[str]


def differences(part: Writer, larger: Writer) -> Tuple[List[Difference], List[Difference]]:
    """The ASes that choose otherwise in a larger graph, by the program: those of a cone, and those outside of it, which
    are decided afterwards."""
    here, there = tables(part), tables(larger)
    inside = [Difference(asn, here[asn][:-1], there[asn][:-1]) for asn in here if here[asn] != there[asn]]
    outside: Dict[int, Difference] = {}
    for origin in part.origins:
        prefix = part.prefixes[origin]
        chosen = {asn: _path(reply, prefix) for asn, reply in here.items()}
        for asn, path in decisions(larger.known, chosen, part.leaks).items():
            found = _path(there[asn], prefix)
            if asn not in here and path != found:
                outside.setdefault(asn, Difference(asn, [], []))
                outside[asn].here.append(_shown(prefix, path))
                outside[asn].there.append(_shown(prefix, found))
    return inside, list(outside.values())


def _path(reply: List[str], prefix: str) -> Optional[Path]:
    """The path of the route to a prefix, in the reply to `routes`."""
    found = replies.routes(reply).get(prefix)
    text = found.attributes.path if found else ""
    return None if found is None else () if text == "-" else tuple(map(int, text.split(",")))


def _shown(prefix: str, path: Optional[Path]) -> str:
    return "%s %s" % (prefix, "none" if path is None else "path=" + (",".join(map(str, path)) or "-"))
