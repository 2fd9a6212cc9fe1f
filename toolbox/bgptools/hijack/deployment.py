"""Which ASes filter: lists, those with the most relationships, or a random share. And the tier of an AS."""
from __future__ import annotations

import re
from dataclasses import dataclass
from decimal import Decimal
from typing import FrozenSet, List, Sequence

from ..importers.relationships.caida import Relations
from ..program.language import number
from ..program.mistakes import Mistake
from ..program.pcg import Pcg32

FORMS = "AS,.., top:N or share:P:SEED is expected, as 3356,1299, top:20 or share:0.3:1"
TIERS = ("tier 1", "transit", "stub")
# The stream of the generator that draws the ASes of a share.
STREAM = 2


@dataclass(frozen=True)
class Deployment:
    """The ASes that filter, and the words that name them; both empty where none does."""
    words: str = ""
    asns: FrozenSet[int] = frozenset()


def tier_of(known: Relations, asn: int) -> str:
    """The tier of an AS: `stub` has no customers, `tier 1` has customers and no provider, `transit` has both."""
    return "stub" if not known.customers[asn] else "transit" if known.providers[asn] else "tier 1"


def by_degree(known: Relations) -> List[int]:
    """The ASes, those with the most relationships first, then those of the lower number."""
    return sorted(known.asns(), key=lambda asn: (-known.degree(asn), asn))


def sample(asns: Sequence[int], count: int, seed: int) -> List[int]:
    """So many of some ASes, by R. Durstenfeld's shuffle from the front, which ends there: more of the same seed begin
    with the same ASes."""
    left, draw = list(asns), Pcg32(seed, STREAM)
    for at in range(min(count, len(left))):
        other = at + draw.below(len(left) - at)
        left[at], left[other] = left[other], left[at]
    return left[:count]


def deployment_of(known: Relations, option: str, words: str) -> Deployment:
    """The ASes that an option names; raises Mistake for other words, and for an AS that is not in the graph."""
    if not words:
        return Deployment()
    top = re.fullmatch(r"top:([1-9][0-9]{0,5})", words)
    share = re.fullmatch(r"share:([01](?:\.[0-9]{1,9})?):([0-9]+)", words)
    if top:
        return Deployment(words, frozenset(by_degree(known)[:int(top.group(1))]))
    if share and Decimal(share.group(1)) <= 1 and number(share.group(2)) is not None:
        count = int(Decimal(share.group(1)) * len(known.customers) + Decimal("0.5"))
        return Deployment(words, frozenset(sample(known.asns(), count, int(share.group(2)))))
    found = [number(word, 1) for word in words.split(",")]
    if None in found:
        raise Mistake("%s %s: %s" % (option, words, FORMS))
    for asn in found:
        if asn not in known.customers:
            raise Mistake("%s %s: AS %s is not in the graph" % (option, words, asn))
    return Deployment(words, frozenset(asn for asn in found if asn is not None))
