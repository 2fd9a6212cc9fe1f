"""What FRR says in OSPF and in IS-IS over each interface."""
from __future__ import annotations

from typing import Dict, List, Optional, Tuple

from ...program.language import address, contains, number, show_address
from ..common.adjacencies import FAST
from ..common.configuration import Address, Config, Hello, Interface, Line, Said, masked
from ..common.igp import is_loopback

# FRR's ends tell a link of these in the same way, and so they do of the other two.
TO_ONE = ("point-to-point", "point-to-multipoint")
# How each kind of metric is written by `metric-style`.
STYLES = {"narrow": "narrow", "wide": "wide", "transition": "narrow wide"}


def settle(config: Config) -> None:
    """Gives the addresses of a router what it says over them."""
    for interface in config.interfaces.values():
        for each in interface.addresses if not is_loopback(interface) and not interface.is_down else ():
            is_passive = config.passive.get(interface.name, config.passive.get("default", False))
            area = None if is_passive else _area(config, interface, each)
            if area is not None:
                each.hellos["ospf"] = _ospf(config, interface, area)
            if not is_passive and "isis" in interface.said and config.has_isis and "net" in config.said:
                each.hellos["isis"] = _isis(config, interface)


def _area(config: Config, interface: Interface, each: Address) -> Optional[Said]:
    """The area of an address: that of its interface, else of the longest `network` with it."""
    if "area" in interface.said:
        return interface.said["area"]
    found = [(where, area) for where, area in zip(config.ospf_networks, config.ospf_areas)
             if contains(where, masked(address(each.own) or 0, 32))]
    return max(found, key=lambda both: both[0][1])[1] if found else None


def named(area: str) -> str:
    """An area by its address."""
    asked = number(area)
    return area if asked is None else show_address(asked)


def _ospf(config: Config, interface: Interface, area: Said) -> Hello:
    said, line = interface.said, interface.line
    hello = said.get("hello-interval", ("10", line))
    dead = said.get("dead-interval", (str(4 * int(hello[0])), hello[1]))
    if dead[0] == "minimal":
        hello, dead = (FAST, dead[1]), ("1", dead[1])
    kind = config.said.get("area %s kind" % named(area[0]), ("normal", area[1]))
    type_ = said.get("network", ("broadcast", line))
    asks = config.said.get("neighbors", ("none", line)) if type_[0] == "non-broadcast" else ("", line)
    settings = {"area": (named(area[0]), area[1]), "area-kind": kind, "hello": hello, "dead": dead, "network": type_,
                "network-kind": ("to one" if type_[0] in TO_ONE else "designated", type_[1]),
                "priority": said.get("priority", ("1", line)), "asks": asks,
                "identifier": config.said.get("identifier", ("", line))}
    own = config.said.get("area %s authentication" % named(area[0]), ("none", line))
    settings["authentication"] = said.get("authentication", own)
    return Hello(settings, _keys(interface, settings))


def _keys(interface: Interface, settings: Dict[str, Said]) -> Tuple[str, ...]:
    """The password that an end takes, which is the one that it sends, its last one; it is put into the settings."""
    how, line = settings["authentication"]
    found: List[Said] = [("none", line)]
    if how == "simple":
        found = [interface.said.get("authentication-key", ("none", line))]
    elif how == "cryptographic":
        found = [("%s %s" % (key, secret), at) for key, (secret, at) in interface.keys.items()] or found
    settings["key"] = found[-1]
    return (found[-1][0],)


def _isis(config: Config, interface: Interface) -> Hello:
    said, line, whole = interface.said, interface.line, config.said
    net, at = whole["net"]
    own = levels_of(*whole.get("is-type", ("level-1-2", line)))
    levels = levels_of(*said["circuit-type"]) if "circuit-type" in said else own
    both = " ".join(level for level in own[0].split(" ") if level in levels[0].split(" "))
    style = whole.get("metric-style", ("wide", at))
    settings = {"network": said.get("isis network", ("broadcast", line)), "password": said.get("password", ("", line)),
                "levels": (both, levels[1]), "area": (net[:-18], at), "system": (net[-17:-3], at),
                "style": (STYLES[style[0]], style[1]),
                "handshake": said.get("handshake", ("three-way", line))}
    for level, name in (("1", "area-password"), ("2", "domain-password")):
        settings["password of level " + level] = whole.get(name, ("", at))
    return Hello(settings)


def levels_of(said: str, line: Line) -> Said:
    """The levels of `is-type` or `circuit-type`."""
    return {"level-1": "1", "level-2-only": "2", "level-1-2": "1 2"}[said], line
