"""Parts of an AS graph that fit into one network, and what is lost by them: `--core N`, and 256 sessions an AS."""
from __future__ import annotations

from typing import List, NamedTuple, Optional

from ...program.mistakes import Mistake
from .caida import MOST_LINKS, MOST_ROUTERS, MOST_SESSIONS, Relations, Tie, counted
from .cone import induced

# So many ASes are named that lose all providers, where not all are.
SHOWN = 10


def core(whole: Relations, count: Optional[int]) -> Relations:
    """The ASes with the most relationships, so many of them, with those between them."""
    if count is None:
        return whole
    return induced(whole, set(sorted(whole.asns(), key=lambda asn: (-whole.degree(asn), asn))[:count]))


def within_limits(whole: Relations, path: str) -> Relations:
    """All ASes, with the relationships that 256 sessions an AS leave room for, those of the greater neighbours first;
    raises Mistake where the ASes, or these relationships, are too many for a network."""
    if len(whole.customers) > MOST_ROUTERS:
        raise Mistake("it has %d ASes, and a network has at most %d: --about ORIGINS keeps those that decide the "
                      "routes of some, --core %d those with the most relationships" % (
                          len(whole.customers), MOST_ROUTERS, MOST_ROUTERS), path)
    kept: List[Tie] = []
    count = dict.fromkeys(whole.customers, 0)
    for tie in sorted(whole.ties, key=lambda tie: -min(whole.degree(tie[0]), whole.degree(tie[1]))):
        if max(count[tie[0]], count[tie[1]]) < MOST_SESSIONS:
            kept.append(tie)
            count[tie[0]] += 1
            count[tie[1]] += 1
    if len(kept) > MOST_LINKS:
        raise Mistake("%d relationships of %d ASes, and a network has at most %d links: --about ORIGINS keeps those "
                      "that decide the routes of some, --core N those of the N ASes with the most" % (
                          len(kept), len(whole.customers), MOST_LINKS), path)
    return whole if len(kept) == len(whole.ties) else _with(whole, kept)


def _with(whole: Relations, ties: List[Tie]) -> Relations:
    """All ASes, with these relationships."""
    found = Relations()
    for table in (found.customers, found.providers, found.peers):
        table.update((asn, set()) for asn in whole.customers)
    for tie in ties:
        found.add(tie)
    return found


class Cut(NamedTuple):
    """What a part of a graph lacks: how many ASes, relationships, and relationships of which both ends are kept; and
    which of the ASes that are kept lose a provider, and which all of theirs, ascending."""
    ases: int
    relationships: int
    between: int
    losing: List[int]
    orphans: List[int]

    @property
    def changes_routes(self) -> bool:
        """Whether an AS that is kept may choose otherwise than in the whole graph, whichever of them originate.

        Where each keeps all providers, what is left out is above none of them: no route comes up from there, or
        crosses a peering."""
        return bool(self.between or self.losing)


def cut(whole: Relations, part: Relations) -> Cut:
    """What a part of the graph lacks."""
    kept = part.customers
    between = sum(tie[0] in kept and tie[1] in kept for tie in whole.ties) - len(part.ties)
    losing = sorted(asn for asn in kept if len(part.providers[asn]) < len(whole.providers[asn]))
    return Cut(len(whole.customers) - len(kept), len(whole.ties) - len(part.ties), between, losing,
               [asn for asn in losing if not part.providers[asn]])


def told(lost: Cut, names_all: bool = False) -> List[str]:
    """What is lost, as lines for who made the cut; none where nothing is."""
    if not lost.ases and not lost.relationships:
        return []
    what = "%s and %s" % (counted(lost.ases, "AS"), counted(lost.relationships, "relationship"))
    if not lost.changes_routes:
        return ["note: %s are left out, which decide no route of the others" % what]
    if lost.between:
        what = "%s, %d of them" % (what, lost.between) if lost.ases else counted(lost.between, "relationship") + ","
        what += " since an AS has at most %d sessions" % MOST_SESSIONS
    lines = ["not taken over: %s; routes can differ from those of the whole graph, and --about ORIGINS writes a part "
             "in which they do not" % what]
    if lost.orphans:
        shown = lost.orphans if names_all else lost.orphans[:SHOWN]
        left = len(lost.orphans) - len(shown)
        more = " and %d more (--all names them)" % left if left else ""
        lines.append("not taken over: all providers of %s: AS %s%s" % (
            counted(len(lost.orphans), "AS"), ", ".join(map(str, shown)), more))
    if len(lost.losing) > len(lost.orphans):
        lines.append("not taken over: some providers of " + counted(len(lost.losing) - len(lost.orphans), "AS"))
    return lines
