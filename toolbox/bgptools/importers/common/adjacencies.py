"""Whether OSPF (RFC 2328, 10.5) or IS-IS (ISO 10589, RFC 5304) makes the two ends of a link neighbours, and uses the
link: what each end says in its packets has to fit what the other one says."""
from __future__ import annotations

from typing import Callable, Dict, List, NamedTuple, Optional, Tuple

from .configuration import Hello, Line, place

# What has to be the same at both ends in OSPF, in the order in which it is looked at, and what it is called.
ALIKE = (("instance", "the instance"), ("area", "the area"), ("broadcast", "real broadcast"),
         ("authentication", "the authentication"),
         ("hello", "the hello interval"), ("dead", "the dead interval"), ("area-kind", "the kind of the area"))
# Networks that have a designated router.
DESIGNATED = ("broadcast", "non-broadcast")
# A key that is of some time alone.
UNKNOWN = "of a time"
# Hellos that come several times a second.
FAST = "fast"


class Difference(NamedTuple):
    """Why two ends are no neighbours, with the line of each: `names` are OSPF or IS-IS, `said` a sentence."""
    protocol: str
    here: Line
    there: Line
    said: str

    def turned(self) -> "Difference":
        """The same, as the other end tells it."""
        return self._replace(here=self.there, there=self.here)

    def __str__(self) -> str:
        other = " (%s)" % place(self.there) if self.there.file else ""
        return "%s finds no neighbour over it: %s%s" % (self.protocol, self.said, other)


def difference(ones: Dict[str, Hello], others: Dict[str, Hello], ends: Tuple[str, str],
               is_pair: bool) -> Optional[Difference]:
    """Why no protocol that both ends run uses a link; nothing where one does, or they run none. `ends` are their
    addresses; `is_pair`: no other router is on the subnet."""
    both = [protocol for protocol in ones if protocol in others]
    found = [COMPARED[protocol](ones[protocol], others[protocol], ends, is_pair) for protocol in both]
    return found[0] if found and all(found) else None


def _differs(protocol: str, one: Hello, other: Hello, name: str, said: str) -> Difference:
    return Difference(protocol, one.at(name), other.at(name), said)


def _ospf(one: Hello, other: Hello, ends: Tuple[str, str], is_pair: bool) -> Optional[Difference]:
    """Why OSPF does not use a link."""
    for name, called in ALIKE:
        here, there = one.word(name), other.word(name)
        if here != there:
            return _differs("OSPF", one, other, name, "%s is %s here and %s there" % (called, here, there))
    for end, opposite in ((one, other), (other, one)):
        if end.word("key") not in opposite.has_keys and UNKNOWN not in (end.word("key"), opposite.word("key")):
            return _differs("OSPF", one, other, "key", "one end does not take the password of the other one")
    return _ospf_network(one, other, ends, is_pair)


def _ospf_network(one: Hello, other: Hello, ends: Tuple[str, str], is_pair: bool) -> Optional[Difference]:
    """What the types of the network, and who may be its designated router, forbid."""
    here, there = one.word("network"), other.word("network")
    if one.word("network-kind") != other.word("network-kind"):
        return _differs("OSPF", one, other, "network", "the network is %s here and %s there" % (here, there))
    if all(_is_silent(end, opposite) for end, opposite in ((one, ends[1]), (other, ends[0]))):
        return _differs("OSPF", one, other, "network", "no end has the other one as its `neighbor`, as a network "
                        "without broadcast asks")
    if here in DESIGNATED and is_pair and one.word("priority") == other.word("priority") == "0":
        return _differs("OSPF", one, other, "priority", "both ends have priority 0, and none becomes the designated "
                        "router")
    if one.word("identifier") and one.word("identifier") == other.word("identifier"):
        return _differs("OSPF", one, other, "identifier", "both ends have the identifier %s" % one.word("identifier"))
    if any(end.word("ttl") == "on" and not opposite.word("ttl") for end, opposite in ((one, other), (other, one))):
        return _differs("OSPF", one, other, "ttl", "one end alone has `ttl security`")
    return None


def _is_silent(end: Hello, opposite: str) -> bool:
    """Whether an end waits for the other one to begin."""
    asks = end.word("asks")
    return asks == "none" or asks != "" and opposite != "" and opposite not in asks.split(" ")


def _isis(one: Hello, other: Hello, _: Tuple[str, str], is_pair: bool) -> Optional[Difference]:
    """Why IS-IS does not use a link."""
    here, there = one.word("network"), other.word("network")
    if here != there:
        return _differs("IS-IS", one, other, "network", "the network is %s here and %s there" % (here, there))
    if here == "point-to-point" and one.word("handshake") != other.word("handshake"):
        return _differs("IS-IS", one, other, "handshake", "the handshake is %s here and %s there" % (
            one.word("handshake"), other.word("handshake")))
    if one.word("password") != other.word("password"):
        return _differs("IS-IS", one, other, "password", "the ends have different passwords")
    if one.word("system") == other.word("system"):
        return _differs("IS-IS", one, other, "system", "both ends have the system identifier %s" % one.word("system"))
    levels = [level for level in one.word("levels").split(" ") if level in other.word("levels").split(" ")]
    reasons = [_level_reason(one, other, level) for level in levels]
    if not reasons:
        return _differs("IS-IS", one, other, "levels", "one end is of level %s alone, and the other one of level %s" % (
            one.word("levels"), other.word("levels")))
    return reasons[-1] if all(reasons) else None


def _level_reason(one: Hello, other: Hello, level: str) -> Optional[Difference]:
    """Why IS-IS does not use a link in a level."""
    if level == "1" and one.word("area") != other.word("area"):
        return _differs("IS-IS", one, other, "area", "the area is %s here and %s there, and they have level 1 alone in "
                        "common" % (one.word("area"), other.word("area")))
    name = "password of level " + level
    if one.word(name) != other.word(name):
        return _differs("IS-IS", one, other, name, "the ends have different passwords of level %s, and take no routes "
                        "of one another" % level)
    styles: List[str] = [style for style in one.word("style").split(" ") if style in other.word("style").split(" ")]
    return None if styles else _differs("IS-IS", one, other, "style", "the metrics are %s here and %s there" % (
        one.word("style"), other.word("style")))


COMPARED: Dict[str, Callable[[Hello, Hello, Tuple[str, str], bool], Optional[Difference]]] = {
    "ospf": _ospf, "isis": _isis}
