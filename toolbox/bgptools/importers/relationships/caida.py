"""AS relationship files in CAIDA's form, and the script with valley-free policies that one becomes."""
from __future__ import annotations

from typing import Any, Dict, Iterable, List, Optional, Sequence, Set, Tuple

from ...program import communities
from ...program.language import number, show_address
from ...program.mistakes import Mistake
from ..common.sources import MOST_UNPACKED, lines_in

MOST_ROUTERS, MOST_LINKS, MOST_SESSIONS = 4096, 16384, 256
# So much is read before the ASes with the most relationships are taken: twice what the world has.
MOST_TIES, MOST_ASES = 2000000, 200000
FORM = "PROVIDER|CUSTOMER|-1 or PEER|PEER|0 is expected, each an AS number"
Tie = Tuple[int, int, int]
# Whose a route is: the low half of the community that marks it.
CUSTOMER, PEER, PROVIDER = 1, 2, 3
# The preference of routes of each; that of customers is a router's own, which no rule has to set.
PREFERENCES = {CUSTOMER: 100, PEER: 90, PROVIDER: 80}
# The AS number of 16 bits that stands for any greater one (RFC 6793); no AS has it.
AS_TRANS = 23456
# So many of them have marks with one number in front.
IN_A_BLOCK = 6553


class Relations:
    """Who buys from whom, and who peers."""

    def __init__(self) -> None:
        self.customers: Dict[int, Set[int]] = {}
        self.providers: Dict[int, Set[int]] = {}
        self.peers: Dict[int, Set[int]] = {}
        self.ties: List[Tie] = []

    def add(self, tie: Tie) -> None:
        one, other, kind = tie
        self.ties.append(tie)
        for asn in (one, other):
            if asn not in self.customers:
                self.customers[asn], self.providers[asn], self.peers[asn] = set(), set(), set()
        if kind == -1:
            self.customers[one].add(other)
            self.providers[other].add(one)
        else:
            self.peers[one].add(other)
            self.peers[other].add(one)

    def asns(self) -> List[int]:
        return sorted(self.customers)

    def degree(self, asn: int) -> int:
        return len(self.customers[asn]) + len(self.providers[asn]) + len(self.peers[asn])


def counted(count: int, noun: str) -> str:
    """So many ASes or relationships, in words: `1 AS`, `2 ASes`, `1 relationship`."""
    return "%d %s%s" % (count, noun, "" if count == 1 else "es" if noun == "AS" else "s")


def relations(path: str, most: int = MOST_UNPACKED, digest: Any = None) -> Relations:
    """The file's relationships, with exact faults; of a packed file so many bytes at most.

    The bytes of the file, as they are, go through `digest`, a hash of hashlib."""
    found, known = Relations(), {}  # type: Relations, Dict[Tuple[int, int], int]
    for at, text in lines_in(path, most, digest=digest):
        if not text.strip() or text.startswith("#"):
            continue
        parts = text.split("|")
        one, other = (number(part, 1) for part in (parts + ["", ""])[:2])
        if one is None or other is None or len(parts) < 3 or parts[2] not in ("-1", "0"):
            raise Mistake("%s, and not `%s`" % (FORM, text[:60]), path, at)
        if one == other:
            raise Mistake("AS %d is related to itself" % one, path, at)
        key = (min(one, other), max(one, other))
        if key in known:
            raise Mistake("AS %d and AS %d are related by line %d already" % (one, other, known[key]), path, at)
        known[key] = at
        found.add((one, other, int(parts[2])))
        if len(found.ties) > MOST_TIES or len(found.customers) > MOST_ASES:
            raise Mistake("more than {:,} relationships or {:,} ASes are read".format(MOST_TIES, MOST_ASES), path, at)
    if not found.ties:
        raise Mistake("it has no relationship: " + FORM, path)
    return found


def provider_loop(known: Relations) -> List[int]:
    """ASes of which each sells to the next one, and the last to the first; none where there is no such loop."""
    left = {asn: len(known.providers[asn]) for asn in known.asns()}
    free = [asn for asn, count in left.items() if not count]
    while free:
        asn = free.pop()
        del left[asn]
        for customer in known.customers[asn]:
            left[customer] -= 1
            if not left[customer]:
                free.append(customer)
    # Who is left has a provider that is left: following them comes to a loop.
    walk: List[int] = []
    here = min(left, default=0)
    while here and here not in walk:
        walk.append(here)
        here = min(asn for asn in known.providers[here] if asn in left)
    return walk[walk.index(here):][::-1] if walk else []


class Writer:
    """The script, with policies that name neighbours.

    An AS has the router, the prefix and the marks that it has in the `whole` graph, where `known` is a part of one.
    ASes that leak advertise all their routes to peers and providers. `head` are comments behind the first one."""
    HEAD = ["# Valley-free policies: routes of customers have preference 100, as a router's own, those of peers 90, "
            "those of providers 80."]

    def __init__(self, known: Relations, origins: List[int], whole: Optional[Relations] = None,
                 leaks: Iterable[int] = (), head: Sequence[str] = ()) -> None:
        self.known, self.origins, self.head = known, origins, self.HEAD + list(head)
        self.whole, self.leaks = (whole or known).asns(), set(leaks)
        self.routers = routers_of(self.whole)
        self.prefixes = {asn: "%s/24" % show_address((100 << 24) + (n << 8)) for n, asn in enumerate(self.whole)}

    def lines(self) -> List[str]:
        lines = self.head + ["router %s %d" % (self.routers[asn], asn) for asn in self.known.asns()]
        for one, other, _ in self.known.ties:
            ends = self.routers[one], self.routers[other]
            lines += ["link %s %s 1" % ends, "join %s %s" % ends]
        for asn in self.known.asns():
            lines += self._policies(asn)
        return lines + ["origin %s %s" % (self.routers[asn], self.prefixes[asn]) for asn in self.origins]

    def _policies(self, asn: int) -> List[str]:
        """Towards peers and providers go its own routes and its customers', and nothing else.

        Each of the others' routes is denied by its first AS. No rule can permit a router's own routes alone, since
        their path is empty: so nothing is permitted by name, and the policy is right for whatever it originates later.
        With 256 sessions an AS there are never more than 255 rules."""
        known, here = self.known, self.routers[asn]
        lines = ["rule %s %s in any permit pref=%d" % (here, self.routers[other], PREFERENCES[kind])
                 for kind, others in ((PEER, known.peers[asn]), (PROVIDER, known.providers[asn]))
                 for other in sorted(others)]
        upward = self._upward(asn)
        return lines + ["rule %s %s out first %d deny" % (here, self.routers[to], other)
                        for to in upward for other in upward if other != to]

    def _upward(self, asn: int) -> List[int]:
        """The neighbours that do not get all routes of the AS."""
        return [] if asn in self.leaks else sorted(self.known.peers[asn] | self.known.providers[asn])

    def count(self) -> int:
        """How many lines the script has."""
        asns = self.known.asns()
        policies = sum(map(self._count_of_policies, asns))
        return len(self.head) + len(asns) + 2 * len(self.known.ties) + policies + len(self.origins)

    def _count_of_policies(self, asn: int) -> int:
        upward = len(self._upward(asn))
        return len(self.known.peers[asn] | self.known.providers[asn]) + upward * max(upward - 1, 0)


class Marking(Writer):
    """The script, with policies by communities: an AS marks what it takes as of a customer, a peer or a provider.

    Each AS has marks of its own. What has passed an AS has its number in the path, and so the AS does not take it
    again. So a route that it takes carries the one mark that its import gave it, and its own routes carry none."""
    HEAD = Writer.HEAD + [
        "# An AS marks routes of its customers by a community that ends with 1, those of its peers with 2, those of its",
        "# providers with 3, and tells peers and providers nothing marked 2 or 3. Its marks are given by no other AS."]

    def __init__(self, known: Relations, origins: List[int], whole: Optional[Relations] = None,
                 leaks: Iterable[int] = (), head: Sequence[str] = ()) -> None:
        super().__init__(known, origins, whole, leaks, head)
        large = [asn for asn in self.whole if asn > 65535]
        self.before = {asn: (AS_TRANS + at // IN_A_BLOCK << 16) + 10 * (at % IN_A_BLOCK + 1) for at, asn in
                       enumerate(large)}

    def _marks(self, asn: int) -> List[int]:
        """AS 7 has 7:1, 7:2 and 7:3; of those above 65535 the first has 23456:11 to 23456:13, the next 23456:21 on.

        Behind 23456:65533 comes 23457:11. No AS of 16 bits has a mark above 3."""
        return [self.before.get(asn, asn << 16) + kind for kind in (CUSTOMER, PEER, PROVIDER)]

    def _policies(self, asn: int) -> List[str]:
        """A rule for what comes from a neighbour, and two for what goes to a peer or provider, whoever else is
        there."""
        known, here, marks = self.known, self.routers[asn], self._marks(asn)
        settings = dict.fromkeys(known.customers[asn], "add=%d" % marks[0])
        for kind, others in ((PEER, known.peers[asn]), (PROVIDER, known.providers[asn])):
            settings.update(dict.fromkeys(others, "pref=%d add=%d" % (PREFERENCES[kind], marks[kind - 1])))
        lines = ["# AS %d: %s" % (asn, ", ".join("%s is %d" % (communities.shown(mark), mark) for mark in marks))]
        lines += ["rule %s %s in any permit %s" % (here, self.routers[to], settings[to]) for to in sorted(settings)]
        return lines + ["rule %s %s out comm %d deny" % (here, self.routers[to], mark)
                        for to in self._upward(asn) for mark in marks[1:]]

    def _count_of_policies(self, asn: int) -> int:
        return 1 + self.known.degree(asn) + 2 * len(self._upward(asn))


def routers_of(asns: Sequence[int]) -> Dict[int, str]:
    """A router's address for each AS of a graph, which ascend with their numbers.

    It is the AS's number in the second and third place, as 10.h.l.1; of larger numbers, one after another from 11.0.0.1
    on."""
    large = {asn: at for at, asn in enumerate(asn for asn in asns if asn > 65535)}
    return {asn: show_address((11 << 24) + (large[asn] << 8) + 1 if asn in large else (10 << 24) + (asn << 8) + 1)
            for asn in asns}


def asns_of(known: Relations, option: str, wanted: str, path: str) -> List[int]:
    """The ASes that an option names, each once; raises Mistake where one is not in the graph."""
    found = []
    for word in wanted.split(","):
        asn = number(word, 1)
        if asn is None or asn not in known.customers:
            raise Mistake("%s %s: AS %s is not among those of the network" % (option, wanted, word), path)
        found.append(asn)
    return list(dict.fromkeys(found))


def origins_of(known: Relations, wanted: Optional[str], path: str) -> List[int]:
    """The ASes that `--origins` names."""
    if wanted == "all":
        return known.asns()
    if wanted is None:
        return sorted(known.asns(), key=lambda asn: (not known.degree(asn), len(known.customers[asn]), asn))[:10]
    return asns_of(known, "--origins", wanted, path)
