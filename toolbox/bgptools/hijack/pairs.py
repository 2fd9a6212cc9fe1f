"""Pairs of victim and attacker: those of a file, or drawn ones."""
from __future__ import annotations

import re
from typing import Dict, List, NamedTuple, Optional

from ..importers.common.sources import lines_in
from ..importers.relationships.caida import Relations
from ..program.language import number
from ..program.mistakes import Mistake
from ..program.pcg import Pcg32
from .attack import LEAK

MOST_PAIRS = 1000000
# The stream of the generator that draws pairs.
STREAM = 1
FORM = "VICTIM ATTACKER or VICTIM,ATTACKER is expected, an AS number each"


class Pair(NamedTuple):
    """Who originates the prefix, and who hijacks it: AS numbers."""
    victim: int
    attacker: int


def can_leak(known: Relations, asn: int) -> bool:
    """Whether an AS has a provider, and another provider or a peer to which it can leak that one's routes."""
    return bool(known.providers[asn]) and len(known.providers[asn]) + len(known.peers[asn]) > 1


def pairs_in(path: str, known: Relations, kind: str) -> List[Pair]:
    """The pairs of a file, a line each; blank lines, comments and a head `victim,attacker` are none.

    Raises Mistake with the line for a pair that cannot be played, or stands there twice."""
    found: Dict[Pair, int] = {}
    for at, text in lines_in(path):
        words = re.split(r"[ \t]*,[ \t]*|[ \t]+", text.strip())
        is_head = not found and [word.lower() for word in words] == ["victim", "attacker"]
        if is_head or words == [""] or words[0].startswith("#"):
            continue
        asns = [number(word, 1) for word in words]
        if len(asns) != 2 or asns[0] is None or asns[1] is None:
            raise Mistake("%s, and not `%s`" % (FORM, text[:60]), path, at)
        pair = Pair(asns[0], asns[1])
        fault = _fault(pair, known, kind)
        if fault is None and pair in found:
            fault = "the pair %d %d is that of line %d" % (*pair, found[pair])
        if fault is None and len(found) == MOST_PAIRS:
            fault = "more than {:,} pairs".format(MOST_PAIRS)
        if fault:
            raise Mistake(fault, path, at)
        found[pair] = at
    if not found:
        raise Mistake("it has no pair: " + FORM, path)
    return list(found)


def _fault(pair: Pair, known: Relations, kind: str) -> Optional[str]:
    """Why a pair cannot be played."""
    for asn in pair:
        if asn not in known.customers:
            return "AS %d is not in the graph" % asn
    if pair.victim == pair.attacker:
        return "AS %d is both victim and attacker" % pair.victim
    if kind == LEAK and not can_leak(known, pair.attacker):
        return "AS %d has nothing to leak: a provider, and another provider or a peer are expected" % pair.attacker
    return None


def drawn_pairs(known: Relations, count: int, seed: int, kind: str) -> List[Pair]:
    """So many different pairs, the same for the same graph, count, seed and kind.

    A victim is each AS as likely, an attacker each AS, or of a leak each that can leak; a pair that is drawn again, or
    of one AS, is drawn anew. Raises Mistake where there are not so many."""
    victims = known.asns()
    attackers = [asn for asn in victims if kind != LEAK or can_leak(known, asn)]
    most = min(len(attackers) * (len(victims) - 1), MOST_PAIRS)
    if count > most:
        raise Mistake("--count %d: the graph has %d pairs for %s, and at most %d are drawn" % (
            count, len(attackers) * (len(victims) - 1), kind, MOST_PAIRS))
    draw = Pcg32(seed, STREAM)
    found: Dict[Pair, None] = {}
    while len(found) < count:
        pair = Pair(victims[draw.below(len(victims))], attackers[draw.below(len(attackers))])
        if pair.victim != pair.attacker:
            found.setdefault(pair)
    return list(found)
