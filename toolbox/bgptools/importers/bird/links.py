"""Where BIRD's routers are linked. A BIRD configuration has no addresses of interfaces: subnets come from OSPF's
patterns, addresses from `local` and `neighbor`, and both from what `ip -o addr` printed, where it lies beside the
file."""
from __future__ import annotations

import os
import re
from typing import Dict, List, Tuple

from ...program.language import address, contains, show_prefix
from ...program.mistakes import Mistake
from ..common.configuration import Address, Interface, Line, masked, short
from ..common.expressions import is_like
from ..common.igp import is_loopback
from ..common.origins import OF_NO_NETWORK
from ..common.sources import lines_in
from . import adjacencies
from .configuration import BirdConfig, OwnRoute, Pattern, Session, interface_of

# Shorter prefixes of OSPF's interfaces are patterns of several subnets, longer ones single addresses.
SUBNETS = range(24, 32)
_ADDRESS = re.compile(r"[0-9]+: (\S+) +inet ([0-9.]+)(?: peer ([0-9.]+))?/([0-9]+)(?: |$)")
Side = Tuple[BirdConfig, Session]


def find(configs: List[BirdConfig]) -> None:
    """Gives all routers their interfaces, with subnets, costs and addresses."""
    for config in configs:
        _read_addresses(config)
        for pattern in config.patterns:
            _take_pattern(config, pattern)
    _pair(configs)
    wide = _wide(configs)
    for config in configs:
        for session in config.sessions():
            _place(config, session, wide)
        _take_loopbacks(config)
        adjacencies.settle(config)
        if config.direct:
            _take_subnets(config, *config.direct)


# What `ip -o addr` printed

def _read_addresses(config: BirdConfig) -> None:
    """The addresses in the file NAME.addresses beside NAME.conf; raises Mistake where a line of it is none."""
    path = _beside(config)
    config.has_addresses = os.path.isfile(path)
    for at, text in lines_in(path) if config.has_addresses else ():
        found = _ADDRESS.match(text)
        if found is None and not re.match(r"[0-9]+: \S+ +inet6 ", text) and text.strip():
            raise Mistake("a line as `ip -o addr` prints it is expected, and not `%s`" % short(text), path, at)
        if found is not None:
            name, own, opposite, length = found.groups()
            line = Line(path, at, text)
            if address(own) is None or int(length) > 32 or opposite and address(opposite) is None:
                raise Mistake("`%s/%s` is no address" % (own, length), path, at)
            if not any(contains(none, masked(address(own) or 0, 32)) for none in OF_NO_NETWORK):
                interface_of(config, name, line).addresses.append(Address(own, int(length), line, opposite or ""))


# OSPF's interfaces

def _take_pattern(config: BirdConfig, pattern: Pattern) -> None:
    """Gives the interfaces that a pattern is about its cost, or makes one of a prefix."""
    met = [interface for interface in config.interfaces.values() if _is_met(interface, pattern)]
    for interface in met:
        if interface.interior is None and not pattern.is_out:
            interface.interior = pattern.line
            interface.cost, interface.has_cost = pattern.cost or 10, True
            interface.said, interface.keys = pattern.said, pattern.keys
            config.passive[interface.name] = pattern.is_stub
        elif pattern.is_out:
            config.passive[interface.name] = True
    if pattern.is_out:
        return
    if pattern.where is not None:
        config.ospf_networks.append(pattern.where)
    elif pattern.name == "*":
        config.ospf_networks.append((0, 0))
    if not met:
        _without_address(config, pattern)


def _is_met(interface: Interface, pattern: Pattern) -> bool:
    """Whether a pattern is about an interface of which the addresses are known."""
    if pattern.name and not is_like(interface.name, pattern.name):
        return False
    where = pattern.where
    return where is None or any(masked(address(each.own) or 0, where[1]) == where and each.length >= where[1]
                                for each in interface.addresses if each.own)


def _without_address(config: BirdConfig, pattern: Pattern) -> None:
    """An interface of which no file has the address."""
    where = pattern.where
    if where is not None and where[1] in SUBNETS:
        made = interface_of(config, pattern.name if pattern.name and "*" not in pattern.name else show_prefix(where),
                            pattern.line)
        made.interior, made.cost, made.has_cost = pattern.line, pattern.cost or 10, True
        made.said, made.keys = pattern.said, pattern.keys
        made.addresses.append(_unknown(where, pattern.line))
        config.passive[made.name] = pattern.is_stub
    elif pattern.name in ("lo", "*") or pattern.name.startswith("dummy") or where is not None and where[1] == 32:
        return
    elif not pattern.is_stub:
        config.tell(pattern.line, "%s: no file has an address of it, so that it links no two routers here; write "
                    "`interface \"NAME\" SUBNET`, or put what `ip -o addr` prints into `%s`, or write `link A B M`" % (
                        short(pattern.line.text), os.path.basename(_beside(config))))


def _unknown(where: Tuple[int, int], line: Line) -> Address:
    """An address that is not known, on this subnet."""
    made = Address("", where[1], line)
    made.subnet = where
    return made


# Sessions

def _pair(configs: List[BirdConfig]) -> None:
    """Gives sessions on a link their own addresses, by what the other end calls them."""
    waiting: List[Side] = [(config, session) for config in configs for session in config.sessions()
                           if session.is_on_a_link(config) and not session.local]
    sides: List[Side] = [(config, session) for config in configs for session in config.sessions()
                         if session.is_on_a_link(config)]
    for config, session in waiting:
        found = [other for there, other in sides if there is not config and _go_together(config, session, there, other)
                 and other.local == session.name]
        if len(found) == 1:
            session.local = found[0].name
    _guess([side for side in waiting if not side[1].local])


def _go_together(config: BirdConfig, session: Session, there: BirdConfig, other: Session) -> bool:
    """Whether each is in the AS that the other one calls its neighbour's."""
    return all(said.remote == str(of.asn) or said.remote == ("internal" if here.asn == of.asn else "external")
               for said, here, of in ((session, config, there), (other, there, config)))


def _guess(waiting: List[Side]) -> None:
    """Two sessions without `local` whose neighbours are the two addresses of one small subnet are one; that is told."""
    for config, session in waiting:
        found = [(there, other) for there, other in waiting if there is not config
                 and _is_beside(session.name, other.name) and _go_together(config, session, there, other)]
        if len(found) == 1 and not session.local:
            there, other = found[0]
            config.tell(session.line, "%s: neither end has `local ADDRESS`; it is taken for the session of %s, whose "
                        "neighbour %s is the other address of one subnet" % (short(session.line.text), there.name,
                                                                            other.name), False)
            session.local, other.local = other.name, session.name


def _is_beside(one: str, other: str) -> bool:
    """Whether two addresses are the ones of a subnet of 31 bits, or the two in the middle of one of 30."""
    low, high = sorted((address(one) or 0, address(other) or 0))
    return high == low + 1 and low % 4 != 3


def _wide(configs: List[BirdConfig]) -> Dict[str, int]:
    """The addresses of neighbours that are on a subnet of which the router has the length."""
    found: Dict[str, int] = {}
    for config, session in ((config, session) for config in configs for session in config.sessions()):
        beside = config.subnet_of(session.name)
        if beside is not None and not beside[1].opposite:
            found[session.name] = beside[1].length
    return found


def _place(config: BirdConfig, session: Session, wide: Dict[str, int]) -> None:
    """Puts the addresses of a session on an interface, where they are on none."""
    own, line = session.local, session.line
    known = [each for interface in config.interfaces.values() for each in interface.addresses]
    if own and own not in [each.own for each in known]:
        free = next((each for each in known if not each.own
                     and masked(address(own) or 0, each.length) == each.subnet), None)
        if free is not None:
            free.own = own
        elif not session.is_on_a_link(config):
            interface_of(config, "lo", line).addresses.append(Address(own, 32, line))
    if session.is_on_a_link(config) and config.subnet_of(session.name) is None:
        made = interface_of(config, "to " + session.name, line)
        made.addresses.append(Address(own, wide[own], line) if own in wide else
                              Address(own or config.own_name(), 32, line, session.name))


def _take_loopbacks(config: BirdConfig) -> None:
    """Whether OSPF carries the addresses of the loopback: by an interface, or as a stub network."""
    for name, interface in config.interfaces.items():
        line = next((pattern.line for pattern in config.patterns if not pattern.is_out and pattern.name
                     and is_like(name, pattern.name) and pattern.where is None), None)
        if is_loopback(interface) and interface.interior is None and line is not None:
            interface.interior = line
    config.ospf_networks += config.stubs
    asked = {each.name: each for each in config.sessions()}
    own = config.identifier
    known = [each.own for interface in config.interfaces.values() for each in interface.addresses]
    if own and own not in asked and own not in known:
        interface_of(config, "lo", config.line).addresses.append(Address(own, 32, config.line))
        _mark_loopback(config, interface_of(config, "lo", config.line))


def _mark_loopback(config: BirdConfig, interface: Interface) -> None:
    line = next((pattern.line for pattern in config.patterns if pattern.name in ("lo", "*") and pattern.where is None),
                None)
    interface.interior = interface.interior or line


def _take_subnets(config: BirdConfig, proto: str, line: Line) -> None:
    """The routes of `protocol direct`, to the subnets of interfaces."""
    if not config.has_addresses:
        config.tell(line, "%s: which subnets BIRD's interfaces have is in no file, and none is originated here. Put "
                    "what `ip -o addr` prints into `%s`, or write `origin %s P` for those that a policy lets out" % (
                        short(line.text), os.path.basename(_beside(config)), config.own_name()))
        return
    found: Dict[Tuple[int, int], None] = {}
    for interface in config.interfaces.values():
        if any(_is_named(interface.name, pattern) for pattern in config.only):
            found.update((each.subnet, None) for each in interface.addresses if not each.opposite)
    config.routes += [OwnRoute(where, line, "RTS_DEVICE", proto, "RTD_UNICAST") for where in found]


def _is_named(name: str, pattern: str) -> bool:
    """Whether an interface of which a file has the name is one of a pattern."""
    return " " not in name and "/" not in name and is_like(name, pattern)


def _beside(config: BirdConfig) -> str:
    """The file with a router's addresses."""
    return os.path.splitext(config.name)[0] + ".addresses"
