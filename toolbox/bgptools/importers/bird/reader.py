"""What each item of a BIRD configuration says of a router."""
from __future__ import annotations

import re
from collections import Counter
from typing import Callable, Dict, List, Match, Optional, Set, Tuple

from ...program.language import address, number
from ..common.configuration import short
from ..common.sessions import ROLES
from .configuration import ACCEPT, REJECT, BirdConfig, Policy, Session
from .filters import TYPES, Function, Node, Wrong, expression_of, statements_of
from .igp import direct, kernel, leave, ospf, resolved, static
from .igp_settings import OFF, SWITCH
from .lexer import Item, Word, items_of, words_in

_ADDRESS = r"([0-9]+(?:\.[0-9]+){3})"
# How a protocol begins: its name, where it has one.
_HEAD = re.compile(r"(?:protocol|template) \S+(?: v[23])?"
                   r"(?: (?!from(?: |$)|v[0-9]+(?: |$))([A-Za-z_][A-Za-z0-9_.:-]*))?"
                   r"(?: from [A-Za-z_][A-Za-z0-9_.:-]*)?")
_TYPES = "|".join((*TYPES, "set"))
_ROLES = {"rs_server": "rs-server", "rs_client": "rs-client"}


def read(path: str, included: Set[str]) -> BirdConfig:
    """The configuration in a file, and the files that it includes; raises Mistake where it cannot be read."""
    config = BirdConfig(path, [path])
    words = words_in(path, included)
    items = _whole(items_of(words))
    templates = {item.texts[2]: item for item in items if item.texts[:2] == ["template", "bgp"] and len(item.texts) > 2}
    for item in items:
        if item.texts[:1] != ["template"]:
            _take(config, item, templates)
        elif item.texts[1:2] != ["bgp"] or len(item.texts) < 3:
            config.tell(item.line, "%s: from-bird knows templates of `protocol bgp` alone; it is left out" % short(
                item.line.text))
    _note_unused(config, items, Counter(word.text for word in words if word.kind == "name"))
    return config


def _note_unused(config: BirdConfig, items: List[Item], count: "Counter[str]") -> None:
    """Notes filters, functions, constants and templates of the file itself whose names stand nowhere else."""
    for item in [item for item in items if item.line.file == config.name]:
        at = 2 if item.texts[:1] == ["template"] else 1
        if item.texts[:1] in (["filter"], ["function"], ["define"], ["template"]) and len(item.texts) > at and count[
                item.texts[at]] == 1:
            config.tell(item.line, "%s: nothing uses `%s`, so that it decides nothing" % (
                short(item.line.text), short(item.texts[at])), False)


def _whole(items: List[Item]) -> List[Item]:
    """The items; a filter or function whose variables stand before its block, each with `;`, is one."""
    found: List[Item] = []
    for item in items:
        before = found[-1] if found else Item([], None)
        if before.texts[:1] in (["filter"], ["function"]) and before.body is None and item.texts[:1] in (
                [], *([each] for each in TYPES)):
            found[-1] = Item(before.head + _apart(before, item), item.body)
        else:
            found.append(item)
    return found


def _apart(before: Item, item: Item) -> List[Word]:
    """The words of the second item behind a `;`, which the first one ends with."""
    return [Word("mark", ";", before.line)] + item.head if item.head else []


def _take(config: BirdConfig, item: Item, templates: Dict[str, Item]) -> None:
    """An item of the file itself."""
    words = item.texts
    known: Dict[str, Callable[[BirdConfig, Item], None]] = {"define": _define, "filter": _filter, "function": _function}
    if words[:1] == ["protocol"] and len(words) > 1:
        _protocol(config, item, templates)
    elif words and words[0] in known and len(words) > 1:
        try:
            known[words[0]](config, item)
        except Wrong as wrong:
            config.tell(wrong.line or item.line, "%s %s: %s; it is left out, and what asks for it, too" % (
                words[0], words[1], wrong))
    elif words[:2] == ["router", "id"] and address(words[-1]) is not None and len(words) == 3:
        config.identifier = words[2]
    elif words[:1] == ["hostname"] and len(words) == 2:
        config.hostname, config.hostname_line = words[1], item.line
    else:
        leave(config, "bird", item)


# Filters

def _define(config: BirdConfig, item: Item) -> None:
    if item.texts[2:3] != ["="] or item.body is not None:
        raise Wrong("`define NAME = VALUE;` is expected", item.line)
    config.constants[item.texts[1]] = expression_of(item.head[3:], item.line)


def _filter(config: BirdConfig, item: Item) -> None:
    if item.body is None:
        raise Wrong("a block in braces is expected", item.line)
    before = _declared(" ".join(item.texts[2:]), item)
    config.filters[item.texts[1]] = before + statements_of(item.body, item.line)


def _function(config: BirdConfig, item: Item) -> None:
    """`function NAME(TYPE NAME, ..) -> TYPE { .. }`."""
    found = re.fullmatch(r"function \S+ \((?: (.*))? \)(?: ->(?: (?:%s))+)?(.*)" % _TYPES, item.said)
    given = [each.strip() for each in re.split("[,;]", found.group(1) or "") if each.strip()] if found else []
    names = [re.fullmatch(r"(?:(?:%s) )+(\S+)" % _TYPES, each) for each in given]
    if found is None or not all(names) or item.body is None:
        raise Wrong("`function NAME(TYPE NAME, ..) { .. }` is expected", item.line)
    body = _declared(found.group(2), item) + statements_of(item.body, item.line)
    config.functions[item.texts[1]] = Function(tuple(name.group(1) for name in names if name), body)


def _declared(said: str, item: Item) -> Tuple[Node, ...]:
    """The variables that stand before a block, each with its type and `;`; raises Wrong for anything else."""
    found = [each.strip() for each in said.split(";") if each.strip()]
    names = [re.fullmatch(r"(?:(?:%s) )+([A-Za-z_]\w*)" % _TYPES, each) for each in found]
    if not all(names):
        raise Wrong("a block in braces is expected, and not `%s`" % short(said.strip()), item.line)
    return tuple(Node("declare", (name.group(1), None), item.line) for name in names if name)


def _policy(config: BirdConfig, item: Item) -> Optional[Policy]:
    """The policy of `import ..` or `export ..`; nothing for what is none."""
    what, rest = (item.texts[1:2] or [""])[0], item.head[2:]
    try:
        if what in ("all", "none") and not rest:
            return Policy(item.line, "", (ACCEPT if what == "all" else REJECT,))
        if what == "where" and item.body is None:
            condition = expression_of(rest, item.line)
            return Policy(item.line, "", (Node("if", (condition, (ACCEPT,), (REJECT,)), item.line),))
        if what == "filter" and item.body is not None and not rest:
            return Policy(item.line, "", statements_of(item.body, item.line))
        if what == "filter" and len(rest) == 1:
            return Policy(item.line, rest[0].text)
    except Wrong as wrong:
        config.tell(wrong.line or item.line, "%s: %s; nothing is let through here" % (short(item.line.text), wrong))
        return Policy(item.line, "", (REJECT,))
    return None


# Protocols

def _protocol(config: BirdConfig, item: Item, templates: Dict[str, Item]) -> None:
    head = _HEAD.fullmatch(item.said)
    if head is None or item.body is None:
        config.tell(item.line, "%s: `protocol KIND NAME { .. }` is expected, with `from TEMPLATE` where it has one; "
                    "it is left out" % short(item.line.text))
        return
    kind, count = item.texts[1], list(config.protocols.values()).count(item.texts[1])
    name = head.group(1) or "%s%d" % (kind, count + 1)
    inside = items_of(item.body)
    if kind == "bgp":
        config.protocols[name] = kind
        _bgp(config, item, name, _with_templates(config, item, templates, 0))
    elif any(each.texts[:1] == ["disabled"] and each.said[9:] not in OFF for each in inside):
        config.count("protocols that are disabled", 1 + len(inside))
    elif kind in ("static", "direct", "ospf", "kernel"):
        config.protocols[name] = kind
        {"static": static, "direct": direct, "ospf": ospf, "kernel": kernel}[kind](config, item, name, inside)
    else:
        config.protocols[name] = kind
        leave(config, "bird", item)


def _with_templates(config: BirdConfig, item: Item, templates: Dict[str, Item], depth: int) -> List[Item]:
    """The items of a protocol behind those of the template that it is made from."""
    inside = items_of(item.body or [])
    named = item.texts[item.texts.index("from") + 1:][:1] if "from" in item.texts else []
    if named and named[0] in templates and depth < len(templates):
        return _with_templates(config, templates[named[0]], templates, depth + 1) + inside
    if named:
        config.tell(item.line, "%s: there is no such template, or it is made from itself" % short(item.line.text))
    return inside


# BGP

def _bgp(config: BirdConfig, item: Item, name: str, inside: List[Item]) -> None:
    session = Session("", item.line, protocol=name)
    for each in inside:
        if not _taken(config, _BGP, each, session):
            leave(config, "bird bgp", each)
    if "ipv4" not in session.words:
        session.flags["activate"] = (False, item.line)
    if "local-six" in session.words and ":" not in session.name:
        line = session.at("local-six")
        config.tell(line, "%s: it is an address of IPv6, and the neighbor's is none; it is left out" % short(line.text))
    if ":" in session.name:
        config.neighbours_six[session.name] = session
        config.count("IPv6", 1 + len(inside))
        return
    if not session.name:
        if not any(each.said.startswith("neighbor range") for each in inside):
            config.tell(item.line, "%s: it has no neighbor with an address; there is no session" %
                        short(item.line.text))
        return
    _keep(config, session)


def _keep(config: BirdConfig, session: Session) -> None:
    """Keeps a session; the router's AS is that of the first one."""
    said = short(session.line.text)
    if session.asn is None:
        config.tell(session.line, "%s: it has no `local as N`; there is no session" % said)
        return
    if config.asn is None:
        config.asn, config.line = session.asn, session.line
    if session.asn != config.asn:
        config.tell(session.line, "%s: BIRD speaks for AS %d in it, and a router is of one AS here, %d, that of its "
                    "first session; there is no session" % (said, session.asn, config.asn))
    elif session.name in config.neighbours:
        config.tell(session.line, "%s: there is a session with %s before; here one stands for both" % (
            said, session.name))
    else:
        config.neighbours[session.name] = session


def _taken(config: BirdConfig, takers: "List[Tuple[str, Taker]]", item: Item, session: Session) -> bool:
    """Whether one of the takers takes the item."""
    said = resolved(config, item)
    for pattern, take in takers:
        found = re.fullmatch(pattern, said)
        if found is not None:
            return take(config, session, item, found) is not False
    return False


Taker = Callable[[BirdConfig, Session, Item, "Match[str]"], Optional[bool]]


def _local(_: BirdConfig, session: Session, item: Item, found: "Match[str]") -> Optional[bool]:
    where, asn = found.group(1), found.group(2)
    if not _is_end(where, asn):
        return False
    session.local = where if where and ":" not in where else session.local
    session.asn = number(asn, 1) if asn else session.asn
    if where:
        session.words["local-six" if ":" in where else "update-source"] = (where, item.line)
    return None


def _is_end(where: Optional[str], asn: Optional[str]) -> bool:
    """Whether an address, of IPv6 too, and an AS number are ones, as far as they are there."""
    return (not where or ":" in where or address(where) is not None) and (not asn or number(asn, 1) is not None)


def _neighbor(_: BirdConfig, session: Session, item: Item, found: "Match[str]") -> Optional[bool]:
    where, asn, side = found.groups()
    if not _is_end(where, asn):
        return False
    session.name = where or session.name
    session.remote = side or asn or session.remote
    return None


def _flag(name: str) -> Taker:
    """Takes a setting that is on or off."""
    def take(_: BirdConfig, session: Session, item: Item, found: "Match[str]") -> None:
        session.flags[name] = (found.group(1) not in OFF, item.line)
    return take


def _word(name: str) -> Taker:
    """Takes a setting that is a word."""
    def take(_: BirdConfig, session: Session, item: Item, found: "Match[str]") -> None:
        session.words[name] = (found.group(1), item.line)
    return take


def _multihop(_: BirdConfig, session: Session, item: Item, found: "Match[str]") -> Optional[bool]:
    if found.group(2) and number(found.group(2), 1, 255) is None:
        return False
    session.is_direct = found.group(1) == "direct"
    session.flags["ebgp-multihop"] = (not session.is_direct, item.line)
    session.words["hops"] = (found.group(2) or "", item.line)
    return None


def _seconds(_: BirdConfig, session: Session, item: Item, found: "Match[str]") -> Optional[bool]:
    asked = number(found.group(2), 0, 65535)
    session.words[found.group(1)] = (found.group(2), item.line)
    return asked is not None and not (found.group(1) == "hold time" and asked in (1, 2))


def _ability(_: BirdConfig, session: Session, item: Item, found: "Match[str]") -> None:
    """A capability that the session has, or asks for."""
    verb, name, said = found.groups()
    session.flags[("require " if verb == "require" else "has ") + name] = (said not in OFF, item.line)


def _restart(_: BirdConfig, session: Session, item: Item, found: "Match[str]") -> None:
    session.flags["has graceful restart"] = (found.group(1) not in OFF, item.line)


def _preference(_: BirdConfig, session: Session, item: Item, found: "Match[str]") -> Optional[bool]:
    asked = number(found.group(1))
    session.preference = session.preference if asked is None else asked
    return asked is not None


def _cluster(_: BirdConfig, session: Session, item: Item, found: "Match[str]") -> Optional[bool]:
    if address(found.group(1)) is None:
        return False
    session.words["cluster"] = (found.group(1), item.line)
    return None


def _role(_: BirdConfig, session: Session, item: Item, found: "Match[str]") -> Optional[bool]:
    said = _ROLES.get(found.group(1), found.group(1))
    if said not in ROLES:
        return False
    session.words["local-role"] = (said, item.line)
    return None


def _channel(config: BirdConfig, session: Session, item: Item, found: "Match[str]") -> None:
    session.words["ipv4"] = ("", item.line)
    for each in items_of(item.body or []):
        _in_channel(config, session, each)


def _in_channel(config: BirdConfig, session: Session, item: Item) -> None:
    if item.texts[:1] in (["import"], ["export"]):
        policy = _policy(config, item)
        if policy is not None:
            session.policies["in" if item.texts[0] == "import" else "out"] = policy
            return
    elif _taken(config, _OF_CHANNEL, item, session):
        return
    leave(config, "bird channel", item)


def _self(_: BirdConfig, session: Session, item: Item, found: "Match[str]") -> None:
    is_on = found.group(2) not in OFF
    session.flags["next-hop-self"] = (is_on, item.line)
    # Without `ebgp` it is for what is reflected, too.
    session.flags["force"] = (is_on and not found.group(1), item.line)


_OF_CHANNEL: List[Tuple[str, Taker]] = [("next hop self( ebgp)?" + SWITCH, _self)]
_SIX = r"([0-9a-fA-F:.]*:[0-9a-fA-F:.]*|" + _ADDRESS[1:]
_BGP: List[Tuple[str, Taker]] = [
    (r"local role (\w+)", _role), ("require roles" + SWITCH, _flag("roles")),
    (r"local(?: %s)?(?: port 179)?(?: as ([0-9]+))?" % _SIX, _local),
    (r"neighbor(?: %s(?: %% \S+)?)?(?: port 179)?(?: as ([0-9]+))?(?: (internal|external))?" % _SIX, _neighbor),
    ("source address %s()" % _ADDRESS, _local), ("(multihop)(?: ([0-9]+))?", _multihop), ("(direct)()", _multihop),
    ("(hold time|keepalive time|min hold time|min keepalive time) ([0-9]+)", _seconds),
    ("ttl security" + SWITCH, _flag("gtsm")), ("capabilities" + SWITCH, _flag("capabilities")),
    ("(enable|advertise|require) (route refresh|enhanced route refresh|as4|extended messages|hostname)" + SWITCH,
     _ability),
    ("(require) (graceful restart)" + SWITCH, _ability), ("graceful restart(?: (on|off|yes|no|aware))?", _restart),
    ("password (.*)", _word("password")), ("passive" + SWITCH, _flag("passive")),
    ("disabled" + SWITCH, _flag("shutdown")), ("rr client" + SWITCH, _flag("route-reflector-client")),
    ("rr cluster id %s" % _ADDRESS, _cluster), ("med metric" + SWITCH, _flag("med-metric")),
    ("deterministic med" + SWITCH, _flag("deterministic")),
    ("default bgp_local_pref ([0-9]+)", _preference), ("default bgp_med (0)", _flag("med")),
    ("ipv4", _channel), *_OF_CHANNEL]
