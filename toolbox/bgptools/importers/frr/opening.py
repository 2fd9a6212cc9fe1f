"""What FRR sends first over a session, and what it takes."""
from __future__ import annotations

from ..common.configuration import Config, Neighbour
from ..common.opening import Opening

# The TTL of a session inside an AS.
MOST = 255


def opening(config: Config, each: Neighbour, is_external: bool) -> Opening:
    """What a router sends to a neighbour, and takes from it."""
    line = each.line
    ttl, least = (1 if is_external else MOST, line), (0, line)
    if each.has("ebgp-multihop") and is_external:
        ttl = (int(each.word("ebgp-multihop hops") or MOST), each.at("ebgp-multihop"))
    if each.has("ttl-security") and is_external:
        at = each.at("ttl-security")
        ttl, least = (MOST, at), (MOST + 1 - int(each.word("ttl-security hops")), at)
    said, at = config.said.get("hold", (config.hold_time, line))
    least_hold, where = config.said.get("minimum-holdtime", ("0", line))
    made = Opening(ttl, least, (int(each.word("hold") or said), each.at("hold") if each.word("hold") else at),
                   (int(least_hold), where), (0, line))
    made.has.update({"bfd": each.at("bfd")} if each.has("bfd") else {})
    if each.has("bfd-strict"):
        made.asks["bfd"] = each.at("bfd-strict")
    return made
