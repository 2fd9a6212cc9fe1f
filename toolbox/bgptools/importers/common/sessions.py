"""What becomes of each session in FRR: which never come up, and which go away with another link than here."""
from __future__ import annotations

from typing import Iterator, List, NamedTuple, Optional, Set, Tuple

from ...network.graph_search import hops, neighbours
from ...program.language import by_address
from .configuration import NOWHERE, Config, Line, Neighbour, place, short
from .igp import interface_with, is_loopback, is_static, knows
from .network import Link, Network
from .opening import Openings, refusal

ROLES = {"provider": "customer", "customer": "provider", "peer": "peer", "rs-server": "rs-client",
         "rs-client": "rs-server"}
# To these comes what others marked as a provider's or a peer's, which is dropped (RFC 9234, 5).
DROPS_MARKED = ("provider", "peer", "rs-server")
UNCONNECTED = ("ebgp-multihop", "disable-connected-check", "ttl-security")


def pairs(network: Network) -> List[Tuple[str, str]]:
    """Each session once, the lower address first."""
    found = {tuple(sorted(both, key=by_address)) for both in network.peers}
    return [(one, other) for one, other in sorted(found, key=lambda both: [by_address(a) for a in both])]


class Reason(NamedTuple):
    """Why a session never comes up: by a line of one end, and one of the other where that has one. The text is empty
    where the line says it itself."""
    config: Config
    line: Line
    said: str
    other: Line = NOWHERE

    def __str__(self) -> str:
        return "%s: %s%s; it is stopped here, too" % (short(self.line.text), self.said, " (%s)" % place(self.other)
                                                      if self.other.file else "")


def check(network: Network, openings: Openings) -> None:
    """Stops the sessions that FRR never brings up, and tells those that it keeps otherwise."""
    for one, other in pairs(network):
        if (one, other) not in network.peers:
            one, other = other, one
        reason = (_reason(network, one, other) or _reason(network, other, one)
                  or _refusal(network, openings, one, other) or _refusal(network, openings, other, one))
        if reason is not None:
            network.stopped.add(frozenset((one, other)))
            if reason.said:
                reason.config.tell(reason.line, str(reason), False)
        else:
            _check_addresses(network, one, other)
            _check_roles(network, one, other)
            _check_roles(network, other, one)


def _reason(network: Network, one: str, other: str) -> Optional[Reason]:
    """Why a session never comes up, or carries no route, by what one end says."""
    if (one, other) not in network.peers:
        return None
    config, each, back = network.routers[one], network.peers[one, other], network.peers.get((other, one))
    if each.has("shutdown") or config.flags.get("bgp shutdown", (False, None))[0]:
        return Reason(config, each.line, "")
    if not each.flags.get("activate", (config.is_on("bgp default ipv4-unicast"), each.line))[0]:
        return Reason(config, each.line, "it is not activated for IPv4 unicast, so that the session carries no "
                      "such route")
    if back is not None and each.has("passive") and back.has("passive"):
        return Reason(config, each.line, "both ends wait for the other to begin, so that the session never comes up",
                      back.at("passive"))
    if back is not None and each.word("password") != back.word("password"):
        return Reason(config, each.line, "the ends have different passwords, so that the session never comes up",
                      back.at("password"))
    said = _role_reason(each, back)
    if said and back is not None:
        return Reason(config, each.line, said, back.at("local-role"))
    said = _distance_reason(network, config, each, one, other)
    if not said and back is not None and _is_unanswered(config, each, network.routers[other], back):
        return Reason(config, each.line, "neither end opens the session from the address that the other one has for it "
                      "(`update-source` is missing), so that the session never comes up", back.line)
    return Reason(config, each.line, said) if said else None


def _refusal(network: Network, openings: Openings, one: str, other: str) -> Optional[Reason]:
    """Why an end does not take what the other one sends."""
    each, back = network.peers.get((one, other)), network.peers.get((other, one))
    if each is None or back is None:
        return None
    config, is_external = network.routers[one], network.is_external(one, other)
    spoken = back.word("local-as").split(" ")
    is_meant = each.remote == spoken[0] or "dual-as" in spoken or not each.remote.isdigit()
    if is_external and spoken != [""] and not is_meant:
        return Reason(config, each.line, "the other end speaks for AS %s, so that the session never comes up" %
                      spoken[0], back.at("local-as"))
    found = refusal(openings(config, each, is_external), openings(network.routers[other], back, is_external))
    said = "%s, so that the session never comes up" % found.said if found else ""
    return Reason(config, found.here, said, found.there) if found else None


def _role_reason(each: Neighbour, back: Optional[Neighbour]) -> str:
    here, there = each.word("local-role").split(" "), back.word("local-role").split(" ")[0] if back else ""
    if back is None or here == [""]:
        return ""
    if there and ROLES.get(here[0]) != there:
        return "the roles %s and %s do not go together, so that the session never comes up" % (here[0], there)
    is_missing = "strict-mode" in here and not there
    return "it asks for a role, and the other end has none, so that no session comes up" if is_missing else ""


def _distance_reason(network: Network, config: Config, each: Neighbour, one: str, other: str) -> str:
    """FRR begins an external session with an address on its own subnets alone, unless told otherwise."""
    if not network.is_external(one, other) or not config.interfaces or each.word("interface"):
        return ""
    is_free = any(each.has(flag) for flag in UNCONNECTED) or config.is_on("bgp disable-ebgp-connected-route-check")
    # FRR takes what a static route leads to for connected.
    if is_free or config.subnet_of(each.name) or is_static(config, each.name):
        return ""
    return "its address is on no subnet here, and there is no `ebgp-multihop`, so that the session never comes up"


def _check_roles(network: Network, one: str, other: str) -> None:
    """A neighbour without a role sends on what others marked for it."""
    each, back = network.peers.get((one, other)), network.peers.get((other, one))
    role = each.word("local-role").split(" ")[0] if each else ""
    if each is None or back is None or role not in DROPS_MARKED or back.word("local-role"):
        return
    line = each.at("local-role")
    network.routers[one].tell(line, "%s: the other end has no role, so that FRR drops here what it sends on with the mark of "
                              "another AS; here it is taken. Write `rule %s %s in path N deny` for such an AS"
                              % (short(line.text), one, other))


# Sessions that come up in FRR under other conditions than here

def _check_addresses(network: Network, one: str, other: str) -> None:
    for here, there in ((one, other), (other, one)):
        each = network.peers.get((here, there))
        if each is not None and there in network.routers and not each.word("interface"):
            _check_way(network, here, there, each)


def _check_way(network: Network, here: str, there: str, each: Neighbour) -> None:
    """Whether the address of a session is reached in FRR, and what takes it away."""
    config, carrier, said = network.routers[here], network.routers[there], short(each.line.text)
    interface = interface_with(carrier, each.name)
    if interface is None or not network.routers[here].interfaces:
        return
    if interface.is_down:
        config.tell(each.line, "%s: its address is that of an interface that is shut down, so that FRR brings no "
                    "session up; write `stop %s %s`" % (said, here, there))
    elif knows(config, each.name, carrier) in ("", "bgp"):
        config.tell(each.line, "%s: no OSPF, IS-IS or static route of the files leads to its address, so that FRR "
                    "brings no session up; here the links lead there. "
                    "Write `stop %s %s` for what FRR does" % (said, here, there))
    elif is_loopback(interface):
        return
    else:
        _tell_links(network, config, each, here, there, [link for link in network.links.values()
                                                         if interface in (link.here, link.there)
                                                         and there in link.ends])


def _tell_links(network: Network, config: Config, each: Neighbour, here: str, there: str, links: List[Link]) -> None:
    """Tells a session on the address of an interface whose link may fail while the session stays up here."""
    said = short(each.line.text)
    between = network.links.get(frozenset((here, there)))
    if between and not links and between.others:
        config.tell(each.line, "%s: the session is on one of several links of the two, which are one here: `fail %s "
                    "%s` takes all of them" % (said, here, there))
    for link in links:
        if not network.is_external(here, there) and has_way(network, here, there, link):
            config.tell(each.line, "%s: the session is on the address of an interface, and FRR drops it with the link "
                        "of %s and %s; here it stays up by another way. "
                        "Write `stop %s %s` beside `fail %s %s`" % (said, link.one, link.other, here, there, link.one,
                            link.other))


def has_way(network: Network, one: str, other: str, without: Link) -> bool:
    """Whether a router reaches another inside its AS without a link."""
    inside = [(link.one, link.other) for link in network.links.values() if link is not without and not link.is_down
              and not any(network.is_external(one, end) for end in link.ends)]
    return other in hops(neighbours(inside), one)


def _is_unanswered(config: Config, each: Neighbour, there: Config, back: Neighbour) -> bool:
    """Whether no end opens a session from the address that the other one has for it."""
    if each.word("interface") or back.word("interface"):
        return False
    forth_from, back_from = source(config, each), source(there, back)
    return not (back.name in forth_from or each.name in back_from or not forth_from or not back_from)


def source(config: Config, each: Neighbour) -> Set[str]:
    """The addresses from which a router may open a session; none where nothing is known of them."""
    said = each.word("update-source")
    if said in config.interfaces:
        return {own.own for own in config.interfaces[said].addresses}
    if said:
        return {said}
    found = config.subnet_of(each.name)
    return {found[1].own} if found else set(_outgoing(config))


def _outgoing(config: Config) -> Iterator[str]:
    for interface in config.interfaces.values():
        if not is_loopback(interface):
            yield from (each.own for each in interface.addresses)
