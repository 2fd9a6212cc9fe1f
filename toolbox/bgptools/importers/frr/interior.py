"""What FRR's lines say of OSPF and IS-IS that the other end of a link has to say, too."""
from __future__ import annotations

import re
from typing import Callable, List, Optional, Tuple

from ...program.language import address, number, show_address
from ..common.configuration import Config, Interface, Line

# The values of the settings of an interface, without the address that FRR takes behind them; and their bounds.
VALUES = {"hello-interval": "[0-9]+", "dead-interval": "[0-9]+|minimal hello-multiplier [0-9]+", "priority": "[0-9]+",
          "network": "(?:broadcast|non-broadcast|point-to-multipoint|point-to-point)(?: dmvpn)?",
          "authentication": "|message-digest|null", "authentication-key": r"\S+",
          "message-digest-key": r"[0-9]+ md5 \S+"}
BOUNDS = {"hello-interval": (1, 65535), "dead-interval": (1, 65535), "priority": (0, 255)}
HOW = {"": "simple", "message-digest": "cryptographic", "null": "none"}


def _ospf(config: Config, interface: Interface, line: Line, no: Optional[str], name: str,
          said: Optional[str]) -> Optional[bool]:
    """A setting of OSPF on an interface."""
    found = re.fullmatch("(%s)(?:(?:^| )([0-9]+(?:\\.[0-9]+){3}))?" % VALUES[name], said or "")
    if no:
        _forget(interface, name, (said or "").split(" ")[0])
        return None
    value = found.group(1) if found else ""
    if found is None or found.group(2) and address(found.group(2)) is None:
        return False
    if value.isdigit() and name in BOUNDS and number(value, *BOUNDS[name]) is None:
        return False
    if name == "message-digest-key":
        key, _, secret = value.split(" ")
        if number(key, 1, 255) is None:
            return False
        interface.keys.setdefault(key, (secret, line))
    else:
        interface.said[name] = (HOW[value] if name == "authentication" else value.split(" ")[0], line)
    return None


def _forget(interface: Interface, name: str, key: str) -> None:
    """Takes a setting back; of several keys the one that is named."""
    interface.said.pop(name, None)
    if name == "message-digest-key":
        interface.keys.pop(key, None)


def _isis(config: Config, interface: Interface, line: Line, no: Optional[str], name: str,
          said: Optional[str]) -> Optional[bool]:
    """A setting of IS-IS on an interface."""
    wanted = {"network": "point-to-point", "password": r"(clear|md5) \S+", "circuit-type": "level-(1|1-2|2-only)"}
    key = "isis network" if name == "network" else name
    if no:
        interface.said.pop(key, None)
    elif re.fullmatch(wanted[name], said or ""):
        interface.said[key] = (said or "", line)
    else:
        return False
    return None


def _handshake(config: Config, interface: Interface, line: Line, no: Optional[str]) -> None:
    interface.said["handshake"] = ("two-way" if no else "three-way", line)


# The blocks of the protocols

def _authenticates(config: Config, line: Line, area: str, how: Optional[str]) -> Optional[bool]:
    return _of_area(config, line, area, "authentication", HOW[how or ""])


def _of_area(config: Config, line: Line, area: str, name: str, said: str) -> Optional[bool]:
    asked = number(area)
    if asked is None and address(area) is None:
        return False
    config.said["area %s %s" % (area if asked is None else show_address(asked), name)] = (said, line)
    return None


def _kind(config: Config, line: Line, area: str, kind: str) -> bool:
    """The kind of an area, which is not taken over by itself."""
    _of_area(config, line, area, "kind", kind)
    return False


def _neighbour(config: Config, line: Line, where: str) -> Optional[bool]:
    if address(where) is None:
        return False
    before, at = config.said.get("neighbors", ("", line))
    config.said["neighbors"] = ((before + " " + where).strip(), at)
    return None


def _identifier(config: Config, line: Line, said: str) -> Optional[bool]:
    if address(said) is None:
        return False
    config.said["identifier"] = (said, line)
    config.interior_identifier = said
    return None


def _word(config: Config, line: Line, name: str, said: str) -> None:
    config.said[name] = (said, line)


def _type(config: Config, line: Line, said: str) -> Optional[bool]:
    """The levels of a router: level 2 alone is taken over by itself."""
    config.said["is-type"] = (said, line)
    return None if said == "level-2-only" else False


def _seconds(config: Config, line: Line, least: str) -> Optional[bool]:
    if number(least, 1, 65535) is None:
        return False
    config.said["minimum-holdtime"] = (least, line)
    return None


def _timers(config: Config, line: Line, alive: str, hold: str) -> Optional[bool]:
    if not are_timers(alive, hold):
        return False
    config.said["hold"] = (hold, line)
    return None


def are_timers(alive: str, hold: str) -> bool:
    """Whether FRR takes a keepalive and a hold time: the latter is 0, or 3 and more."""
    asked = number(hold, 0, 65535)
    return number(alive, 0, 65535) is not None and asked is not None and asked not in (1, 2)


Rows = List[Tuple[str, Callable[..., Optional[bool]]]]
INTERFACE: Rows = [
    (r"(no )?(?:ip )?ospf (hello-interval|dead-interval|priority|network|authentication|authentication-key|"
     r"message-digest-key)(?: (.+))?", _ospf),
    (r"(no )?isis (network|password|circuit-type)(?: (.+))?", _isis),
    (r"(no )?isis three-way-handshake", _handshake)]
OSPF: Rows = [
    (r"(?:ospf )?router-id (\S+)", _identifier), (r"area (\S+) authentication(?: (message-digest))?", _authenticates),
    (r"area (\S+) (stub|nssa)(?: .+)?", _kind), (r"neighbor (\S+)(?: .+)?", _neighbour)]
ISIS: Rows = [
    (r"(net) ([0-9A-Fa-f]{2}(?:\.[0-9A-Fa-f]{4}){3,9}\.00)", _word), (r"is-type (level-(?:1|1-2|2-only))", _type),
    (r"(metric-style) (narrow|wide|transition)", _word),
    (r"(area-password|domain-password) ((?:clear|md5) \S+)(?: authenticate snp \S+)?", _word)]
BGP: Rows = [(r"bgp minimum-holdtime (\S+)", _seconds), (r"timers bgp (\S+) (\S+)(?: [0-9]+)?", _timers),
             (r"no (?:bgp minimum-holdtime|timers bgp)(?: [0-9 ]+)?", lambda config, line: None)]
