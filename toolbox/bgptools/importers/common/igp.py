"""What the interior routing of the files knows: which interfaces OSPF or IS-IS cover, which subnets they carry, and
who has a route to an address."""
from __future__ import annotations

import re
from typing import List, Optional

from ...program.language import address, contains
from .configuration import Address, Config, Interface, Prefix, masked


def covered(config: Config, interface: Interface, each: Address) -> bool:
    """Whether OSPF or IS-IS has the subnet of this address."""
    if interface.interior is not None:
        return config.has_ospf or config.has_isis or " area " in interface.interior.text
    value = masked(address(each.own) or 0, 32)
    return any(contains(where, value) for where in config.ospf_networks)


def runs_over(config: Config, interface: Interface, each: Address) -> bool:
    """Whether OSPF or IS-IS finds neighbours over this address."""
    is_passive = config.passive.get(interface.name, config.passive.get("default", False))
    return covered(config, interface, each) and not is_passive and not interface.is_down


def has_interior(config: Config) -> bool:
    """Whether the router takes part in OSPF or IS-IS."""
    return config.has_ospf or config.has_isis or any(interface.interior for interface in config.interfaces.values())


def carried(config: Config, where: str) -> str:
    """How the router makes the way to an address on one of its subnets known inside its AS: `interior` by OSPF or
    IS-IS; `external` as one of their
    external routes; `bgp` by BGP itself; or empty."""
    found = config.subnet_of(where) or _own(config, where)
    statics = [static for static in config.statics if contains(static.where, masked(address(where) or 0, 32))
               and static.where[1]]
    if found and covered(config, *found):
        return "interior"
    if found and "connected" in config.ospf_redistributes or statics and "static" in config.ospf_redistributes:
        return "external"
    subnets: List[Prefix] = [found[1].subnet] if found else []
    subnets += [static.where for static in statics]
    for origin in config.origins:
        brought = {"connected": found, "static": statics, "network": origin.where in subnets}
        if brought[origin.kind]:
            return "bgp"
    return ""


def _own(config: Config, where: str) -> "Optional[tuple[Interface, Address]]":
    """The interface that has the address itself."""
    return next(((interface, each) for interface in config.interfaces.values() for each in interface.addresses
                 if each.own == where), None)


def interface_with(config: Config, where: str) -> Optional[Interface]:
    """The interface that has an address, a loopback first."""
    found = [interface for interface in config.interfaces.values() if any(each.own == where
        for each in interface.addresses)]
    return next((each for each in found if is_loopback(each)), found[0] if found else None)


def is_loopback(interface: Interface) -> bool:
    """Whether the interface has no link that may fail."""
    return re.fullmatch("(lo|loopback|dummy)[0-9]*", interface.name) is not None


def knows(config: Config, where: str, carrier: Config) -> str:
    """By what a router has a way to an address that is the carrier's, or on a subnet of it: `connected`, `static`,
    `interior`, `external`, `bgp`; or empty."""
    found = config.subnet_of(where)
    if found and not found[0].is_down:
        return "connected"
    if is_static(config, where):
        return "static"
    by = carried(carrier, where)
    return by if by == "bgp" or has_interior(config) else ""


def is_static(config: Config, where: str) -> bool:
    """Whether a static route other than the default one leads to an address."""
    value = masked(address(where) or 0, 32)
    return any(static.where[1] and contains(static.where, value) for static in config.statics)
