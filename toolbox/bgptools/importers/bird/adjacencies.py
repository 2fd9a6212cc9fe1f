"""What BIRD says in OSPF over each interface, and what it says first in a session."""
from __future__ import annotations

from typing import Dict, List, Tuple

from ..common.adjacencies import UNKNOWN
from ..common.configuration import Address, Hello, Interface, Line, Neighbour, Said
from ..common.igp import is_loopback
from ..common.opening import Opening
from .configuration import BirdConfig, Session
from .igp_settings import TYPES

# The subnets on which BIRD has one other router, where nothing else is said.
TO_ONE = (30, 31)
# The hops of a session inside an AS, or of `multihop`; the hold time in seconds; and the largest TTL.
HOPS, HOLD, MOST = 64, 240, 255
# What `require` asks for, by what the other end says of it, and whether it has that where it says nothing.
ABILITIES = {"route refresh": True, "enhanced route refresh": True, "as4": True, "extended messages": False,
             "hostname": False, "graceful restart": True}


def settle(config: BirdConfig) -> None:
    """Gives the addresses of a router what it says over them."""
    for interface in config.interfaces.values():
        is_passive = config.passive.get(interface.name, False)
        for each in interface.addresses if not is_loopback(interface) and not is_passive else ():
            if "area" in interface.said:
                each.hellos["ospf"] = _ospf(config, interface, each)


def _ospf(config: BirdConfig, interface: Interface, each: Address) -> Hello:
    said, line = interface.said, interface.said["area"][1]
    hello = said.get("hello", ("10", line))
    count = said.get("dead count", ("4", hello[1]))
    own_type = "ptp" if each.opposite or each.length in TO_ONE else "broadcast"
    type_, at = said.get("type", (own_type, line))
    settings = {"area": said["area"], "area-kind": said["area-kind"], "hello": hello,
                "dead": said.get("dead", (str(int(count[0]) * int(hello[0])), count[1])),
                "network": (TYPES[type_], at), "network-kind": (TYPES[type_], at),
                "priority": said.get("priority", ("1", line)), "ttl": said.get("ttl", ("", line)),
                "authentication": said.get("authentication", ("none", line)),
                "instance": said.get("instance", config.said.get("instance", ("0", line))),
                "broadcast": said.get("broadcast", ("off", line))}
    settings["asks"] = said.get("neighbors", ("none", line)) if TYPES[type_] == "non-broadcast" else ("", line)
    return Hello(settings, _keys(interface, settings))


def _keys(interface: Interface, settings: Dict[str, Said]) -> Tuple[str, ...]:
    """The passwords that an end takes; the one that it sends, the first, is put into the settings."""
    how, line = settings["authentication"]
    found: List[Said] = [("none", line)]
    if how != "none":
        found = [(key if how == "cryptographic" else secret, at)
                 for key, (secret, at) in interface.keys.items()] or found
    settings["key"] = found[0]
    return (UNKNOWN,) if settings["key"][0] == UNKNOWN else tuple(each for each, _ in found)


# A session

def opening(config: BirdConfig, each: Neighbour, is_external: bool) -> Opening:
    """What a router sends to a neighbour, and takes from it."""
    assert isinstance(each, Session)
    line = each.line
    is_direct = is_external if each.is_direct is None else each.is_direct
    at = each.at("hops") if "hops" in each.words else line
    hops = 1 if is_direct else int(each.word("hops") or HOPS)
    ttl, least = (hops, at), (0, line)
    if each.has("gtsm"):
        ttl, least = (MOST, each.at("gtsm")), (MOST + 1 - hops, each.at("gtsm"))
    hold = _seconds(each, "hold time", HOLD)
    made = Opening(ttl, least, hold, _seconds(each, "min hold time", 0), _seconds(each, "min keepalive time", 0))
    if each.word("keepalive time"):
        made.alive_by = (int(each.word("keepalive time")), max(hold[0], 1))
    has_some = each.flags.get("capabilities", (True, line))[0]
    made.has = {name: line for name, is_on in ABILITIES.items()
                if has_some and each.flags.get("has " + name, (is_on, line))[0]}
    made.asks = {name: each.at("require " + name) for name in ABILITIES if each.has("require " + name)}
    return made


def _seconds(each: Session, name: str, default: int) -> Tuple[int, Line]:
    said, line = each.words.get(name, (str(default), each.line))
    return int(said), line
