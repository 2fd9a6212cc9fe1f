"""The kinds of hijack, as commands: what the victim registers and originates, and what the attacker does."""
from __future__ import annotations

from typing import List

# The victim's prefix, its two halves, and the router that an attacker pretends to hear it from: addresses of no AS.
PREFIX, HALVES = "203.0.113.0/24", ("203.0.113.0/25", "203.0.113.128/25")
PRETENDED = "192.0.2.1"
SAME, LONGER, FORGED, LEAK = KINDS = ("same", "longer", "forged", "leak")
# What the attacker prefers to all that it hears.
PREFERRED = 200


def opening(kind: str, victim: str, attacker: str, victim_asn: int, mark: int) -> List[str]:
    """The commands that begin a hijack, by the routers of victim and attacker; a leak is first played without it.

    `mark` is the community that the attacker gives to routes of customers, which it advertises to all."""
    own = ["origin %s %s" % (victim, PREFIX)]
    if kind == SAME:
        return own + ["origin %s %s" % (attacker, PREFIX)]
    if kind == LONGER:
        return own + ["origin %s %s" % (attacker, HALVES[0])]
    return own + (pretended(attacker, str(victim_asn), mark) if kind == FORGED else [])


def pretended(attacker: str, path: str, mark: int) -> List[str]:
    """The attacker advertises to all its neighbours the prefix with its own AS in front of this path (AS numbers joined
    by commas), as if the first AS of the path were its customer."""
    return ["virtual %s %s" % (PRETENDED, path.split(",")[0]), "link %s %s 1" % (attacker, PRETENDED),
            "join %s %s" % (attacker, PRETENDED), "rule %s %s out any deny" % (attacker, PRETENDED),
            "rule %s %s in any permit pref=%d add=%d" % (attacker, PRETENDED, PREFERRED, mark),
            "feed %s %s update %s %s igp -" % (PRETENDED, attacker, PREFIX, path)]
