"""What each router originates, by its `network` and `redistribute` lines, and where FRR would choose otherwise."""
from __future__ import annotations

from typing import Dict, List, Optional, Tuple

from ...program.language import contains
from ..common.configuration import Config, Line, Origin, Prefix, place, short
from ..common.igp import carried, has_interior
from ..common.network import Network
from ..common.origins import OF_NO_NETWORK, OWN, Own, is_active
from ..common.regions import shown
from ..common.report import listed
from .rules import judged


def origins_of(network: Network, name: str) -> List[Own]:
    """The prefixes that a router originates, each once; what is left out is told."""
    config = network.routers[name]
    found: Dict[Prefix, Own] = {}
    unclear: List[Tuple[Prefix, Line, str]] = []
    for origin in config.origins:
        for where in _prefixes(network, name, origin):
            reason = _doubt(network, name, origin, where)
            own = None if reason else _judged(config, origin, where)
            if reason:
                unclear.append((where, origin.line, reason))
            elif own is not None:
                found.setdefault(where, own)
    for where, line, reason in unclear:
        # Another line may originate the prefix without doubt.
        if where not in found:
            config.tell(line, "%s: %s" % (short(line.text), reason))
    return list(found.values())


def _prefixes(network: Network, name: str, origin: Origin) -> List[Prefix]:
    config = network.routers[name]
    if origin.kind == "network":
        return [origin.where]
    if origin.kind == "static":
        _tell_inactive(network, name)
        return list(dict.fromkeys(static.where for static in config.statics if is_active(network, name, static)))
    subnets = [each.subnet for interface in config.interfaces.values() if not interface.is_down
               for each in interface.addresses]
    return [where for where in dict.fromkeys(subnets) if not any(contains(own, where) for own in OF_NO_NETWORK)]


def _doubt(network: Network, name: str, origin: Origin, where: Prefix) -> str:
    """Why the files do not show whether a line originates a prefix, and what to write if it does; else nothing."""
    config = network.routers[name]
    if origin.kind == "network" and config.is_on("bgp network import-check") and not has_route(network, name, where):
        return ("no connected, static or interior route of the files is to this prefix, and FRR originates it only "
                "where there is one; write `origin %s %s` if there is" % (name, shown(where)))
    if judged(config, origin.map, where).is_permit is None:
        return ("what its route-map says of %s cannot be told, so that it is not originated here; write `origin %s %s` "
                "if it is" % (shown(where), name, shown(where)))
    return ""


def _judged(config: Config, origin: Origin, where: Prefix) -> Optional[Own]:
    """A prefix that a line originates, unless its map denies it."""
    line = origin.line
    is_permit, settings = judged(config, origin.map, where)
    if not is_permit:
        config.tell(line, "%s: its route-map denies %s, so that FRR does not originate it, and neither is it here" % (
            short(line.text), shown(where)), False)
        return None
    for kind, (value, at) in settings.items():
        _tell_setting(config, line, kind, value, at, where)
    return Own(where, line, settings.get("weight", ("32768", line))[0] != "0")


def _tell_setting(config: Config, line: Line, kind: str, value: str, at: Line, where: Prefix) -> None:
    """What a route map sets of an own route: no script says it."""
    if kind == "weight" or kind == "med" and value == "0" or kind == "pref" and value == str(OWN):
        return
    if kind in ("community", "comm-list"):
        if kind == "community" and value != "none":
            config.tell(at, "%s: `%s` gives it to %s, and an own route has no communities here; `add=` of a rule on "
                        "the way out gives it one" % (at.text, short(line.text), shown(where)))
        return
    config.tell(at, "%s: `%s` gives it to %s, and an own route has preference 100, no MED and an empty path here; MED "
                "and prepending can be set by a rule on the way out" % (
        at.text, short(line.text), shown(where)))


def has_route(network: Network, name: str, where: Prefix) -> bool:
    """Whether a router has a route to just this prefix that is not of BGP: connected, static, or learned from OSPF or
    IS-IS."""
    config = network.routers[name]
    own = [each.subnet for interface in config.interfaces.values() if not interface.is_down
           for each in interface.addresses]
    if where in own or where in [static.where for static in config.statics if is_active(network, name, static)]:
        return True
    return has_interior(config) and any(_brings(there, where) for other, there in network.routers.items()
                                        if other != name and there.asn == config.asn)


def _tell_inactive(network: Network, name: str) -> None:
    for static in network.routers[name].statics:
        if not is_active(network, name, static):
            network.routers[name].tell(static.line, "%s: nothing in the files leads to its gateway, so that FRR does "
                                       "not use it; "
                                       "it is not originated. Write `origin %s %s` if it is" % (
                                           short(static.line.text), name, shown(static.where)))


def _brings(config: Config, where: Prefix) -> bool:
    """Whether OSPF or IS-IS learns the prefix from a router."""
    by_static = "static" in config.ospf_redistributes and where in [static.where for static in config.statics]
    own = [each for interface in config.interfaces.values() if not interface.is_down for each in interface.addresses
           if each.subnet == where]
    return by_static or any(carried(config, each.own) in ("interior", "external") for each in own)


# Told of the network as a whole

def tell_incomplete(network: Network) -> None:
    """Told once: ORIGIN of what is redistributed."""
    lines = [(config, origin.line) for config in network.routers.values() for origin in config.origins
             if origin.kind != "network"]
    if lines:
        config, line = lines[0]
        more = "; so it is at %s" % listed([place(each) for _, each in lines[1:]]) if len(lines) > 1 else ""
        config.tell(line, "%s: FRR gives what is redistributed ORIGIN incomplete, and an own route has igp here; "
                    "that decides where a prefix has several origins%s. `network` in its place makes FRR do the "
                    "same" % (short(line.text), more), is_certain=False)
