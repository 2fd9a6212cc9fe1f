"""What BIRD's lines say of OSPF on an interface that the other end of a link has to say, too."""
from __future__ import annotations

import re
from typing import Callable, Dict, List, Match, Optional, Tuple

from ...program.language import address, number
from ..common.adjacencies import UNKNOWN
from ..common.configuration import Said
from .lexer import Item, items_of

TYPES = {"broadcast": "broadcast", "bcast": "broadcast", "nonbroadcast": "non-broadcast", "nbma": "non-broadcast",
         "pointopoint": "point-to-point", "ptp": "point-to-point", "pointomultipoint": "point-to-multipoint",
         "ptmp": "point-to-multipoint"}
SWITCH = r"(?: (on|off|yes|no|enabled?|disabled?|true|false|1|0))?"
OFF = ("off", "no", "disable", "disabled", "false", "0")


class Settings:
    """What the block of an interface says, each with its line: settings, and passwords by what the packets carry."""

    def __init__(self) -> None:
        self.said: Dict[str, Said] = {}
        self.keys: Dict[str, Said] = {}

    def take(self, item: Item, said: str) -> bool:
        """Whether an item is one of these; `said` is the item with numbers in the place of names."""
        for pattern, take in _TAKERS:
            found = re.fullmatch(pattern, said)
            if found is not None:
                return take(self, item, found) is not False
        return False


Taker = Callable[[Settings, Item, "Match[str]"], Optional[bool]]


def _number(settings: Settings, item: Item, found: "Match[str]") -> Optional[bool]:
    name, value = found.groups()
    if number(value, 0 if name == "priority" else 1, 255 if name == "priority" else 65535) is None:
        return False
    if name in ("dead", "dead count"):
        settings.said.pop("dead", None)
        settings.said.pop("dead count", None)
    settings.said[name] = (value, item.line)
    return None


def _word(settings: Settings, item: Item, found: "Match[str]") -> Optional[bool]:
    name, value = found.groups()
    if name == "type" and value not in TYPES:
        return False
    settings.said[name] = (value, item.line)
    return None


def _ttl(settings: Settings, item: Item, found: "Match[str]") -> None:
    said = found.group(1) or "on"
    settings.said["ttl"] = ("" if said in OFF else "tx" if said == "tx only" else "on", item.line)


def _broadcast(settings: Settings, item: Item, found: "Match[str]") -> None:
    settings.said["broadcast"] = ("off" if found.group(1) in OFF else "on", item.line)


def _neighbors(settings: Settings, item: Item, found: "Match[str]") -> Optional[bool]:
    """The neighbours of a network without broadcast: those that may become its designated router are greeted."""
    inside = items_of(item.body or [])
    if item.body is None or any(address(each.texts[0]) is None for each in inside):
        return False
    named = [each.texts[0] for each in inside if each.texts[1:] == ["eligible"]]
    settings.said["neighbors"] = (" ".join(named) or "none", item.line)
    return None


def _password(settings: Settings, item: Item, found: "Match[str]") -> Optional[bool]:
    inside = items_of(item.body or [])
    given = {each.texts[0]: each.said.partition(" ")[2] for each in inside if each.texts}
    secret, key = found.group(1), given.get("id", str(len(settings.keys) + 1))
    if any(name not in ("id", "algorithm") for name in given):
        settings.keys[UNKNOWN] = (UNKNOWN, item.line)
    else:
        settings.keys["%s %s %s" % (key, given.get("algorithm", "keyed md5"), secret)] = (secret, item.line)
    return None


def _passwords(settings: Settings, item: Item, found: "Match[str]") -> Optional[bool]:
    return all(settings.take(each, each.said) for each in items_of(item.body or [])) if item.body else False


_TAKERS: List[Tuple[str, Taker]] = [
    ("(hello|dead|dead count|priority) ([0-9]+)", _number), (r"(type) (\w+)", _word),
    ("(authentication) (none|simple|cryptographic)", _word), ("ttl security(?: (on|off|yes|no|tx only))?", _ttl),
    ("real broadcast" + SWITCH, _broadcast), ("neighbors()", _neighbors), (r"password (.*)", _password),
    ("passwords()", _passwords)]
