"""Plays the hijack of a pair in the program, on the part of the graph that decides it, and reads who chose what."""
from __future__ import annotations

import re
from dataclasses import dataclass
from typing import Dict, List, NamedTuple, Set, Tuple

from ..importers.relationships.caida import MOST_LINKS, MOST_ROUTERS, MOST_SESSIONS, Relations
from ..importers.relationships.cone import cone
from ..program.line_count import check_length
from ..program.mistakes import Mistake
from ..program.process import Program
from .attack import HALVES, LEAK, PREFIX, PRETENDED, opening, pretended
from .pairs import Pair
from .script import Filtering

MOST_DELIVERIES = 4294967295
ROUTE = re.compile(r"(\S+) from (\S+) path=(\S+) ")
# Who has a route from nobody: it is the AS's own, or the attacker pretends to hear it.
NOBODY = 0


class Choice(NamedTuple):
    """The route that an AS chose: from which neighbour, or NOBODY; its AS_PATH without the AS itself; and whether its
    peers and providers get it, too."""
    via: int
    path: Tuple[int, ...]
    is_to_all: bool


class TooLarge(Mistake):
    """The part of the graph that decides a pair is larger than what the program holds."""


# What each AS chose for a prefix; an AS without a route is missing.
Choices = Dict[int, Choice]


@dataclass
class Played:
    """What the ASes of the part chose for the prefix, and for the longer one that is hijacked; and for a leak what they
    had chosen without it. `asns` are the ASes of the part."""
    asns: Set[int]
    whole: Choices
    longer: Choices
    before: Choices


def part_of(known: Relations, pair: Pair, is_all: bool) -> Relations:
    """The ASes above victim and attacker, or all but those that have no customers; raises TooLarge where the program
    cannot hold them."""
    found = cone(known, pair, None if is_all else ())
    advice = ": leave --played all out" if is_all else ""
    # One router and one link are for what an attacker pretends.
    if len(found.customers) >= MOST_ROUTERS or len(found.ties) >= MOST_LINKS:
        raise TooLarge("%d ASes with %d relationships are to be played, and a network has at most %d routers and %d "
                       "links%s" % (len(found.customers), len(found.ties), MOST_ROUTERS, MOST_LINKS, advice))
    for asn in found.asns():
        if found.degree(asn) + (asn == pair.attacker) > MOST_SESSIONS:
            raise TooLarge("AS %d has %d neighbours among the %d ASes that are to be played, and a router has at most "
                           "%d sessions%s" % (asn, found.degree(asn), len(found.customers), MOST_SESSIONS, advice))
    return found


def play(known: Relations, writer: Filtering, pair: Pair, kind: str, is_all: bool) -> Played:
    """What the ASes of the part choose that decides the pair, once all queues are empty."""
    part = part_of(known, pair, is_all)
    asns = part.asns()
    lines = writer.lines_of(part, pair.victim)
    check_length(len(lines) + 4 * len(asns), None)
    victim, attacker = (writer.routers[asn] for asn in pair)
    mark = writer.customer_mark(pair.attacker)
    reader = _Reader(known, writer, asns)
    with Program() as program:
        _give(program, lines + opening(kind, victim, attacker, pair.victim, mark))
        tables = reader.tables(program)
        before: Choices = {}
        if kind == LEAK:
            before = tables[PREFIX]
            _leak(program, known, pair, before, attacker, mark)
            tables = reader.tables(program)
    return Played(set(asns), tables[PREFIX], tables[HALVES[0]], before)


def _leak(program: Program, known: Relations, pair: Pair, before: Choices, attacker: str, mark: int) -> None:
    """The attacker advertises the route that it chose to all neighbours, where that is of a provider or peer."""
    choice = before.get(pair.attacker)
    if choice is not None and choice.via in known.providers[pair.attacker] | known.peers[pair.attacker]:
        _give(program, pretended(attacker, ",".join(map(str, choice.path)), mark))


def _give(program: Program, lines: List[str]) -> None:
    """Gives it the lines, and has it deliver until all queues are empty."""
    for line, reply in zip(lines, program.pour(lines)):
        if reply != "ok":
            raise Mistake("`%s` is %s" % (line, reply))
    told = program.request("converge fair %d" % MOST_DELIVERIES)[-1]
    if not told.startswith("converged "):
        raise Mistake("converge: %s" % told)


class _Reader:
    """Reads tables of routers as choices of ASes."""

    def __init__(self, known: Relations, writer: Filtering, asns: List[int]) -> None:
        self.known, self.asns = known, asns
        self.questions = ["routes " + writer.routers[asn] for asn in asns]
        self.sources = {writer.routers[asn]: asn for asn in asns}
        self.sources.update({"self": NOBODY, PRETENDED: NOBODY})

    def tables(self, program: Program) -> Dict[str, Choices]:
        """What each AS chose for each prefix."""
        found: Dict[str, Choices] = {PREFIX: {}, HALVES[0]: {}}
        for asn, reply in zip(self.asns, program.say_all(self.questions)):
            for line in reply[:-1]:
                prefix, source, path = self._parsed(line)
                via = self.sources[source]
                found[prefix][asn] = Choice(via, path, via == NOBODY or via in self.known.customers[asn])
        return found

    @staticmethod
    def _parsed(line: str) -> Tuple[str, str, Tuple[int, ...]]:
        match = ROUTE.match(line)
        if match is None:
            raise Mistake("`%s` is no route" % line)
        prefix, source, path = match.groups()
        return prefix, source, () if path == "-" else tuple(map(int, path.split(",")))
