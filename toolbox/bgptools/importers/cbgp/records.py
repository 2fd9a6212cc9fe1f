"""Records of routes, as C-BGP takes them from virtual peers by `recv`."""
from __future__ import annotations

import re
from typing import List, NamedTuple

from ...program.language import address, number, show_prefix
from ..tables.bgpdump import ORIGINS, communities_of, path_of
from ..tables.feeds import MOST_COMMUNITIES
from .filters import prefix_of
from .lines import Line
from .network import Network, Peer

FORM = ("a record BGP4|time|A|peer|AS|prefix|path|origin|next hop|preference|MED|communities or "
        "BGP4|time|W|peer|AS|prefix is expected")
MOST_OF_PATH = 255
KINDS = ("BGP4", "BGP4MP", "TABLE_DUMP", "TABLE_DUMP2")


class Record(NamedTuple):
    """A record: the prefix, whether it takes the route back, and its twelve parts."""
    where: str
    is_withdrawal: bool
    parts: List[str]


def read(line: Line, text: str) -> Record:
    """The record that a text spells; raises Mistake."""
    parts = text.split("|")
    if len(parts) < 6 or parts[0] not in KINDS or parts[2] not in ("A", "W", "B"):
        raise line.mistake(FORM)
    where = prefix_of(parts[5])
    if where is None:
        raise line.mistake("`%s` is no prefix, as 10.0.0.0/8" % parts[5][:60])
    if address(parts[3]) is None or number(parts[4], 1) is None:
        raise line.mistake("`%s` is no peer, an address and an AS number as 1.0.0.1|65000" % "|".join(parts[3:5])[:60])
    return Record(show_prefix(where), parts[2] == "W", (parts + [""] * 6)[:12])


def fed(network: Network, line: Line, record: Record, peer: Peer, other: str) -> str:
    """The words of `feed` behind the prefix; empty where the route is not taken over, which is told. Raises Mistake."""
    parts = record.parts
    path, origin = path_of(_with_sets(parts[6])), ORIGINS.get(parts[7].upper())
    med = "-" if parts[10] == "" else parts[10] if number(parts[10]) is not None else None
    is_hop = parts[8] == "" or address(parts[8]) is not None
    is_preference = parts[9] == "" or number(parts[9]) is not None
    if path is None or origin is None or med is None or not is_hop or not is_preference:
        raise line.mistake("a path as `1 2`, an origin IGP, EGP or INCOMPLETE, a next hop, a preference and a MED are "
                           "expected, and not `%s`" % "|".join(parts[6:11])[:80])
    comms, odd = communities_of(parts[11], line.file, line.number)
    said = "the route of %s to %s" % (other, record.where)
    for is_wrong, text in (
            (path.split("_")[0].split(",")[0] != str(peer.asn), "its path does not begin with AS %d" % peer.asn),
            (len(re.findall("[0-9]+", path)) > MOST_OF_PATH, "its path has more than %d AS numbers" % MOST_OF_PATH),
            (len(comms) > MOST_COMMUNITIES, "it has %d communities, and a route is fed with %d at most" % (
                len(comms), MOST_COMMUNITIES))):
        if is_wrong:
            network.tell(line, "%s is left out: %s" % (said, text))
            return ""
    if odd:
        network.tell(line, "%s is fed without %s: there are no large and extended communities" % (said, " ".join(odd)))
    if (parts[3], parts[4]) != (other, str(peer.asn)):
        network.tell(line, "%s: it is told as of %s in AS %s; here it is this peer's" % (said, parts[3], parts[4]))
    if parts[8] not in (other, ""):
        network.tell(line, "%s: its next hop is %s; here it is the peer" % (said, parts[8][:60]))
    return "%s %s %s%s" % (path, origin, med, " comm=" + ",".join(map(str, comms)) if comms else "")


def _with_sets(text: str) -> str:
    """A path with each set as a dump has it: `1 {3 2}` and `1 [3 2]` are `1 {3,2}`."""
    return re.sub(r"[\[{]([^\]}]*)[\]}]", lambda found: "{%s}" % ",".join(re.split("[ ,]+", found.group(1).strip())),
                  text)
