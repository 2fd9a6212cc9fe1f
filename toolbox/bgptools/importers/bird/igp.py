"""What a BIRD configuration says of static routes, subnets and OSPF; and how settings are read and left out."""
from __future__ import annotations

import re
from typing import Dict, List, Optional

from ...program.language import address, number, show_address
from ..common.configuration import Prefix, Said, Static, loose_prefix, short
from . import omission_table
from .configuration import BirdConfig, OwnRoute, Pattern
from .igp_settings import OFF, SWITCH, Settings
from .lexer import Item, Word, items_of  # noqa: F401, gives the table of omissions what it says of BIRD

# These are on by default, and hold here always.
_ON = re.compile("(path metric|igp metric|interpret communities|allow as sets)" + SWITCH)
# These are off by default.
_OFTEN_OFF = re.compile("(prefer older|rs client|add paths|stub router|rfc1583compat|ecmp|merge external|vrf default|"
                        "require roles)(?: (off|no|disabled?|false|0|default))")
_DEST = {"blackhole": "RTD_BLACKHOLE", "unreachable": "RTD_UNREACHABLE", "prohibit": "RTD_PROHIBIT",
         "reject": "RTD_UNREACHABLE", "drop": "RTD_BLACKHOLE"}


def leave(config: BirdConfig, kind: str, item: Item) -> None:
    """An item that is not taken over, with what is in its block: counted, or told."""
    if _OFTEN_OFF.fullmatch(item.said):
        config.count("what is off by default")
    elif _ON.fullmatch(item.said) and item.texts[-1] not in OFF:
        config.count("what holds here always")
    else:
        config.leave_out(kind, item.line, item.said)


def resolved(config: BirdConfig, item: Item) -> str:
    """The words of an item, with numbers and addresses in the place of the names that are defined for them."""
    found = []
    for word in item.head:
        known = config.constants.get(word.text) if word.kind == "name" else None
        is_one = known is not None and known.what == "value" and isinstance(known.of[0], (int, str))
        found.append(str(known.of[0]) if known is not None and is_one else word.text)
    return " ".join(found)


# Routes that are not of BGP

def static(config: BirdConfig, item: Item, name: str, inside: List[Item]) -> None:
    """A protocol of static routes."""
    for each in inside:
        if each.texts[:1] == ["route"]:
            _route(config, each, name)
        elif each.texts[:1] == ["ipv4"]:
            _own_channel(config, each)
        elif each.texts[:1] == ["ipv6"]:
            config.count("IPv6")
        else:
            leave(config, "bird static", each)


def _own_channel(config: BirdConfig, item: Item) -> None:
    """The channel of a protocol that is not BGP's: all that it has is taken."""
    for each in items_of(item.body or []):
        if each.said in ("import all", "table master4") or each.texts[0] == "export" and is_policy(each):
            config.count("settings of other protocols")
        else:
            config.tell(each.line, "%s: it may keep routes of this protocol from the table, or change them; here all "
                        "are taken" % short(each.line.text))


def is_policy(item: Item) -> bool:
    """Whether an item is `import` or `export` with all, none, a condition or a filter; what that says is not read."""
    what, rest = item.texts[1:2], item.texts[2:]
    if item.texts[:1] not in (["import"], ["export"]) or not what:
        return False
    if what[0] == "filter":
        return len(rest) == 1 and item.body is None or not rest and item.body is not None
    return what[0] in ("all", "none") and not rest or what[0] == "where" and bool(rest)


def _leads(words: List[Word]) -> bool:
    """Whether the words behind the prefix of a static route say where it leads."""
    if len(words) == 1:
        return words[0].text in _DEST
    is_known = len(words) > 1 and words[0].text in ("via", "recursive") and words[1].kind in (
        "address", "string", "name")
    is_address = is_known and (words[1].kind != "address" or address(words[1].text) is not None)
    behind = " ".join(word.kind if word.kind in ("string", "number") else word.text for word in words[2:])
    return is_address and re.fullmatch(r"(% string)?( ?onlink| ?weight number| ?bfd( on| off)?)*", behind) is not None


def _route(config: BirdConfig, item: Item, name: str) -> None:
    """A static route."""
    words = resolved(config, item).split(" ")
    if len(words) > 1 and ":" in words[1]:
        config.count("IPv6")
        return
    where = loose_prefix("".join(words[1:4])) if words[2:3] == ["/"] else None
    rest = words[4:]
    if where is None or not _leads(item.head[4:]):
        config.tell(item.line, "%s: from-bird does not know this form of a static route" % short(item.line.text))
        return
    if item.body:
        config.tell(item.line, "%s: what is set of the route in braces is left out; it is told as any other one" %
                    short(item.line.text))
    config.statics.append(Static(where, item.line, "" if rest[0] in _DEST else rest[1]))
    config.routes.append(OwnRoute(where, item.line, "RTS_STATIC", name, _DEST.get(rest[0], "RTD_UNICAST")))


def direct(config: BirdConfig, item: Item, name: str, inside: List[Item]) -> None:
    """The protocol of the subnets of interfaces."""
    for each in inside:
        if each.texts[:1] == ["interface"]:
            config.only = [word.text for word in each.head if word.kind == "string"]
        elif each.texts[:1] == ["ipv4"]:
            _own_channel(config, each)
            config.direct = (name, item.line)
        elif each.texts[:1] == ["ipv6"]:
            config.count("IPv6")
        else:
            leave(config, "bird direct", each)


def kernel(config: BirdConfig, item: Item, name: str, inside: List[Item]) -> None:
    """The protocol by which the kernel gets its routes."""
    if any(each.said == "learn" or each.said.startswith("learn ") and each.texts[1] not in OFF for each in inside):
        leave(config, "bird", item)
        return
    config.count("settings of other protocols")
    for each in inside:
        if each.texts[:1] == ["ipv4"]:
            _kernel_channel(config, each)
        else:
            leave(config, "bird kernel", each)


def _kernel_channel(config: BirdConfig, item: Item) -> None:
    """What the kernel is given: here packets follow the chosen routes."""
    for each in items_of(item.body or []):
        if is_policy(each) or each.said == "table master4":
            config.count("settings of other protocols")
        else:
            leave(config, "bird kernel", each)


# OSPF

def ospf(config: BirdConfig, item: Item, name: str, inside: List[Item]) -> None:
    """A protocol of OSPF."""
    if "v3" in item.texts and not any(each.texts[:1] == ["ipv4"] for each in inside):
        config.count("IPv6", 1 + len(inside))
        return
    config.has_ospf = True
    for each in inside:
        if each.texts[:1] == ["area"] and len(each.texts) == 2 and each.body is not None and _area_of(each.texts[1]):
            config.areas.setdefault(_area_of(each.texts[1]), each.line)
            _area(config, each)
        elif each.texts[:1] == ["ipv4"]:
            _ospf_channel(config, each)
        elif each.texts[:2] == ["instance", "id"] and number(each.texts[-1], 0, 255) is not None:
            config.said["instance"] = (each.texts[-1], each.line)
        else:
            leave(config, "bird ospf", each)


def _area_of(said: str) -> str:
    """The name of an area, a number or an address, as an address; empty where it is neither."""
    asked = number(said)
    return show_address(asked) if asked is not None else said if address(said) is not None else ""


def _ospf_channel(config: BirdConfig, item: Item) -> None:
    """What OSPF gets from the table: its external routes."""
    for each in items_of(item.body or []):
        said = set(each.texts) | {word.text for word in each.body or []}
        if is_policy(each) and (each.texts[0] == "import" or each.said == "export none"):
            config.count("OSPF settings")
            continue
        if not is_policy(each):
            leave(config, "bird ospf channel", each)
            continue
        kinds = {"static": "RTS_STATIC", "connected": "RTS_DEVICE"}
        taken = [kind for kind, source in kinds.items() if each.texts[1:] == ["all"] or source in said]
        config.ospf_redistributes.update({kind: each.line for kind in taken})
        if each.texts[1:2] != ["all"]:
            config.tell(each.line, "%s: which routes it lets into OSPF is not looked at closer: static ones %s" % (
                short(each.line.text), "are" if "static" in taken else "are not"))


def _area(config: BirdConfig, item: Item) -> None:
    inside = items_of(item.body or [])
    kinds = [(each.texts[0], each.line) for each in inside if each.texts[:1] in (["stub"], ["nssa"])
             and each.texts[-1] not in OFF]
    area = {"area": (_area_of(item.texts[1]), item.line), "area-kind": kinds[-1] if kinds else ("normal", item.line)}
    for each in inside:
        if each.texts[:1] == ["interface"]:
            _interface(config, each, area)
        elif each.texts[:1] == ["stubnet"]:
            where = loose_prefix("".join(each.texts[1:4])) if each.texts[2:3] == ["/"] else None
            config.stubs += [where] if where else []
            if where is None or len(each.texts) > 4:
                config.tell(each.line, "%s: `stubnet PREFIX` is expected; it is left out" % short(each.line.text))
        else:
            leave(config, "bird area", each)


def _interface(config: BirdConfig, item: Item, area: Dict[str, Said]) -> None:
    """An interface of OSPF, or a pattern of several."""
    cost, is_stub, settings = None, False, Settings()
    instance = re.search(r"instance ([0-9]+)$", item.said)
    settings.said.update({**area, **({"instance": (instance.group(1), item.line)} if instance else {})})
    for each in items_of(item.body or []):
        said = resolved(config, each)
        if re.fullmatch("cost [0-9]+", said) and number(said[5:], 1, 65535) is not None:
            cost = int(said[5:])
            settings.said["cost"] = (said[5:], each.line)
        elif re.fullmatch("stub" + SWITCH, said):
            is_stub = each.texts[-1] not in OFF
        elif not settings.take(each, said):
            leave(config, "bird interface", each)
    for words in _parted(item.head[1:]):
        if not _is_pattern(words):
            config.tell(item.line, "%s: an interface is named as `\"eth0\"`, or by a prefix; it is left out" % short(
                item.line.text))
            continue
        is_out = words[0].text == "-"
        name = next((word.text for word in words if word.kind == "string"), "")
        at = next((at for at, word in enumerate(words) if word.kind == "address"), None)
        where = _prefix_at(words, at)
        config.patterns.append(Pattern(item.line, name, where, is_out, cost, is_stub, settings.said,
                                       settings.keys))


def _is_pattern(words: List[Word]) -> bool:
    """Whether words name interfaces: `-` before it leaves them out, a name, and a prefix."""
    kinds = " ".join(word.text if word.text in ("-", "/") else word.kind for word in words)
    at = next((at for at, word in enumerate(words) if word.kind == "address"), None)
    return re.fullmatch("(- )?(string( address( / number)?)?|address( / number)?)( number)?", kinds) is not None and (
        at is None or _prefix_at(words, at) is not None)


def _prefix_at(words: List[Word], at: Optional[int]) -> Optional[Prefix]:
    if at is None:
        return None
    if len(words) > at + 2:
        return loose_prefix("".join(word.text for word in words[at:at + 3]))
    return loose_prefix(words[at].text + "/32")


def _parted(words: List[Word]) -> List[List[Word]]:
    """The words between commas."""
    found: List[List[Word]] = [[]]
    for word in words:
        if word.text == "," and word.kind == "mark":
            found.append([])
        elif word.text != "instance":
            found[-1].append(word)
    return [each for each in found if each]
