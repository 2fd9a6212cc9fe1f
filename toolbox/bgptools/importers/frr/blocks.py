"""What each line of a block says of a router."""
from __future__ import annotations

import ipaddress
import os
import re
from typing import Any, Callable, Dict, List, Optional, Tuple

from ...program.language import address, number, show_address
from ...program.names import TOO_LONG, fits
from ..common.configuration import (
    NOWHERE, Address, Config, Entries, Entry, Interface, Item, Line, Neighbour, Origin, Static, Taker, loose_prefix,
    no_address, short, taken
)
from . import interior
from .communities import given, numbers_of
from .lines import Block
from .omission_table import about_block

# Files of FRR's single daemons. Maps and lists of another daemon than bgpd say nothing of BGP.
OTHER_DAEMONS = frozenset("%s.conf" % name for name in ("zebra", "ospfd", "staticd", "isisd", "ripd", "eigrpd",
                                                        "babeld"))
# Files of daemons that decide no route of IPv4.
COUNTED_DAEMONS = frozenset("%s.conf" % name for name in ("pimd", "pim6d", "ospf6d", "ripngd", "ldpd", "bfdd", "vrrpd",
                                                          "nhrpd"))


def take_block(config: Config, block: Block) -> None:
    """All lines of a block."""
    first = next(iter(block.heads + block.lines), NOWHERE)
    if os.path.basename(first.file) in COUNTED_DAEMONS:
        config.count("other daemons", len(block.heads) + len(block.lines))
        return
    if block.kind in ("other", "family"):
        _leave_block(config, block)
        return
    if block.kind == "map" and os.path.basename(block.heads[0].file) in OTHER_DAEMONS:
        config.count("maps and lists of other daemons", len(block.heads) + len(block.lines))
        return
    if block.kind == "bgp" and not _begin_bgp(config, block) or block.kind == "map" and not _is_entry(block):
        _leave_block(config, block)
        return
    given = _begin(config, block)
    config.words.update(word for line in block.lines if not OF_LIST.match(line.text) for word in line.words)
    for line in block.lines:
        if not taken(TAKERS[block.kind], line, line.text, *given):
            _leave_line(config, block, line)
    if block.kind == "map":
        _keep_entry(config, block, given[1])


def _begin(config: Config, block: Block) -> Tuple[Any, ...]:
    """What the takers of a block's lines are given."""
    if block.kind == "interface":
        name = block.heads[0].words[1]
        return config, config.interfaces.setdefault(name, Interface(name, block.heads[0]))
    if block.kind == "map":
        _, _, action, sequence = block.heads[-1].words
        return config, Entry(action == "permit", int(sequence), block.heads[0])
    config.has_ospf, config.has_isis = config.has_ospf or block.kind == "ospf", config.has_isis or block.kind == "isis"
    return (config,)


def _is_entry(block: Block) -> bool:
    """Whether an entry of a route map has a number that FRR takes."""
    return number(block.heads[0].words[3], 1, 65535) is not None


def _begin_bgp(config: Config, block: Block) -> bool:
    said = block.heads[0].words[2:]
    asn = number(said[0], 1) if said else config.asn
    if asn is None or config.asn not in (None, asn):
        return False
    if config.asn is None:
        config.asn, config.line = asn, block.heads[0]
    return True


def _leave_block(config: Config, block: Block) -> None:
    """A block that is no part of what is taken over."""
    head, how_many = block.heads[0], len(block.lines)
    counted, said = about_block(head.text)
    if said and (how_many or not counted):
        config.tell(head, "%s: %s%s" % (short(head.text), said, ", and so are the %d lines under it" % how_many
                                        if how_many > 1 else ", and so is the line under it" if how_many else ""))
    else:
        config.count(counted, how_many + len(block.heads))


def _leave_line(config: Config, block: Block, line: Line) -> None:
    found = re.fullmatch(r"(no )?neighbor (\S+) (.+)", line.text) if block.kind == "bgp" else None
    no, said = (found.group(1) or "", found.group(3)) if found else ("", line.text)
    is_off = any(pattern.fullmatch(said if found else line.text[3:]) for pattern, _ in (OF_NEIGHBOUR if found
        else TAKERS[block.kind]))
    if found and found.group(2) in config.neighbours_six:
        config.count("IPv6")
    elif found and not (found.group(1) or found.group(2) in config.neighbours or found.group(2) in config.groups):
        config.tell(line, "%s: %s" % (short(line.text), no_address(found.group(2)) or "no line before makes this "
                    "neighbor, by `remote-as` or `peer-group`; FRR does not take it"))
    else:
        config.leave_out("neighbour" if found else block.kind, line, no + said, is_off)


# The top

# Lines that make a list.
OF_LIST = re.compile(r"(ip prefix-list|access-list|(bgp|ip) (as-path access-list|community-list)) ")
# What is no name of an interface.
NUMERIC = re.compile("[0-9.:]+")
PROFILES = ("traditional", "datacenter")


def _hostname(config: Config, line: Line, name: str) -> None:
    if not fits(name):
        config.tell(line, TOO_LONG % short(name), False)
        return
    config.hostname, config.hostname_line = name, line


def _profile(config: Config, line: Line, profile: str) -> None:
    if profile not in PROFILES:
        config.tell(line, "%s: FRR has the profiles %s; the first one is taken" % (
            short(line.text), " and ".join(PROFILES)))
        return
    config.profile = profile
    config.count("versions")


def _version(config: Config, line: Line, said: str) -> None:
    found = re.match(r"([0-9]{1,4})\.([0-9]{1,4})(?![0-9])", said)
    if found is None:
        config.tell(line, "%s: a version as 8.4 is expected; the defaults are those of the newest one" %
                    short(line.text))
        return
    config.version = (int(found.group(1)), int(found.group(2)))
    config.count("versions")


def _interior_identifier(config: Config, line: Line, said: str) -> None:
    if address(said) is None:
        config.tell(line, "%s: an address is expected; it is left out" % short(line.text))
        return
    config.interior_identifier = said


def _static(config: Config, line: Line, said: str) -> Optional[bool]:
    words = said.split(" ")
    has_mask = len(words) > 1 and "/" not in words[0]
    where = loose_prefix(words[0], words[1]) if has_mask else loose_prefix(words[0])
    rest = words[2 if has_mask else 1:]
    if where is None or not rest or NUMERIC.fullmatch(rest[0]) and address(rest[0]) is None:
        return False
    if "vrf" in rest or "nexthop-vrf" in rest or "table" in rest:
        config.tell(line, "%s: it is of a VRF or of another table, and no part of the default instance" %
                    short(line.text))
        return None
    way = "" if rest[0].lower() in ("null0", "blackhole", "reject") else rest[0]
    config.statics.append(Static(where, line, way))
    config.asked += [(line, way)] if way and address(way) is None else []
    return None


def _put(table: Dict[str, Entries], name: str, sequence: Optional[str], item: Item) -> Optional[bool]:
    """An entry of a list at its number, or behind the last one; False where that is no number."""
    entries = table.setdefault(name, Entries())
    at = number(sequence, 1) if sequence else entries.highest // 5 * 5 + 5
    if at is None:
        return False
    entries.highest = max(entries.highest, at)
    entries[at] = item
    return None


def _is_of_bgp(config: Config, line: Line) -> bool:
    is_other = os.path.basename(line.file) in OTHER_DAEMONS
    if is_other:
        config.count("maps and lists of other daemons")
    return not is_other


def _prefix_list(config: Config, line: Line, name: str, sequence: Optional[str], action: str, where: str,
                 rest: str) -> Optional[bool]:
    found = (0, 0) if where == "any" else loose_prefix(where)
    bounds = {word: number(value, 0, 32) for word, value in re.findall(r"(ge|le) ([0-9]+)", rest)}
    if found is None:
        return False
    least = bounds.get("ge", 0 if where == "any" else found[1])
    most = bounds.get("le", 32 if where == "any" or "ge" in bounds else found[1])
    if least is None or most is None or not found[1] <= least <= most <= 32:
        return False
    if not _is_of_bgp(config, line):
        return None
    return _put(config.prefix_lists, name, sequence, Item(action == "permit", line, found, least, most))


def _access_list(config: Config, line: Line, name: str, sequence: Optional[str], action: str,
                 said: str) -> Optional[bool]:
    words = said.split(" ")
    item = Item(action == "permit", line)
    if words[0] == "ip" and len(words) > 1 and words[-1] == "any" and len(words) < 5:
        words = words[1:-1]
    if words[0] == "host" and len(words) == 2:
        words = [words[1], "0.0.0.0"]
    wild = address(words[1]) if len(words) == 2 else 0 if len(words) == 1 and "/" not in words[0] else None
    if words != ["any"] and wild is not None and address(words[0]) is not None:
        if wild & (wild + 1):
            return False
        found, item.is_wild = loose_prefix("%s/%d" % (words[0], 32 - bin(wild).count("1"))), True
    else:
        found = (0, 0) if words == ["any"] else loose_prefix(words[0]) if "/" in words[0] else None
        if len(words) > 1 and words[1:] != ["exact-match"]:
            return False
    if found is None:
        return False
    item.where, item.least, item.most = found, found[1], found[1] if "exact-match" in words else 32
    return _put(config.access_lists, name, sequence, item) if _is_of_bgp(config, line) else None


def _path_list(config: Config, line: Line, name: str, sequence: Optional[str], action: str,
               said: str) -> Optional[bool]:
    return _put(config.path_lists, name, sequence, Item(action == "permit", line, said=said))


def _community_list(config: Config, line: Line, style: Optional[str], named: Optional[str], numbered: Optional[str],
                    sequence: Optional[str], action: str, said: str) -> Optional[bool]:
    """An entry of a community list, which is standard or expanded by its word or its number."""
    at = number(numbered or "0", 0, 500)
    is_standard = style == "standard" or at in range(1, 100)
    numbers = numbers_of(said) if is_standard else ()
    if numbers is None or numbered and not at:
        return False
    name, is_permit, expression = named or numbered or "", action == "permit", "" if is_standard else said
    known = config.community_lists.get(name, Entries())
    first = next(iter(known.values()), None)
    if first is not None and bool(first.numbers) != is_standard:
        config.tell(line, "%s: the list is %s before, and FRR takes no entry of the other kind into it" % (
            short(line.text), "expanded" if is_standard else "standard"), False)
        return None
    # Of two entries that say the same FRR keeps the first.
    says = (is_permit, expression, numbers)
    if says in known.said:
        return None
    known.said.add(says)
    config.community_lists[name] = known
    return _put(config.community_lists, name, sequence, Item(is_permit, line, said=expression, numbers=numbers))


# An interface

def _address(config: Config, interface: Interface, line: Line, own: str, length: str,
             opposite: Optional[str]) -> Optional[bool]:
    if address(own) is None or number(length, 1, 32) is None or opposite and address(opposite.split("/")[0]) is None:
        return False
    interface.addresses.append(Address(own, int(length), line, (opposite or "").split("/")[0]))
    return None


def _address_with_peer(config: Config, interface: Interface, line: Line, own: str, opposite: str) -> Optional[bool]:
    return _address(config, interface, line, own, "32", opposite)


def _address_six(config: Config, interface: Interface, line: Line, said: str) -> Optional[bool]:
    try:
        found = ipaddress.IPv6Interface(said)
    except ValueError:
        return False
    config.count("IPv6")
    if not found.is_link_local and found.network.prefixlen < 128:
        interface.six.append((str(found.network), str(found.ip)))
    return None


def _cost(config: Config, interface: Interface, line: Line, cost: str) -> Optional[bool]:
    if number(cost, 1, 65535) is None:
        return False
    interface.cost, interface.has_cost = int(cost), True
    interface.said["cost"] = (cost, line)
    return None


def _isis_metric(config: Config, interface: Interface, line: Line, cost: str) -> Optional[bool]:
    return _cost(config, interface, line, cost) if not interface.has_cost else None


def _shutdown(config: Config, interface: Interface, line: Line, no: Optional[str]) -> None:
    interface.is_down = not no
    interface.said["shutdown"] = (no or "", line)


def _interior(config: Config, interface: Interface, line: Line, area: Optional[str],
              tag: Optional[str]) -> Optional[bool]:
    if area and _area(config, line, area) is False:
        return False
    interface.interior = line
    interface.said["area" if area else "isis"] = (area or tag or "", line)
    return None


def _ospf_passive(config: Config, interface: Interface, line: Line, no: Optional[str]) -> None:
    config.passive[interface.name] = not no


# `router ospf`

def _ospf_network(config: Config, line: Line, where: str, area: str) -> Optional[bool]:
    found = loose_prefix(where)
    if found is None or _area(config, line, area) is False:
        return False
    config.ospf_networks.append(found)
    config.ospf_areas.append((area, line))
    return None


def _area(config: Config, line: Line, area: str) -> Optional[bool]:
    asked = number(area)
    if asked is None and address(area) is None:
        return False
    config.areas.setdefault(area if asked is None else show_address(asked), line)
    return None


def _passive(config: Config, line: Line, no: Optional[str], name: str) -> None:
    config.passive[name] = not no
    config.asked += [] if name == "default" else [(line, name)]


def _ospf_redistribute(config: Config, line: Line, kind: str) -> None:
    config.ospf_redistributes[kind] = line


# `router bgp`

def _flag(config: Config, line: Line, no: Optional[str], flag: str) -> None:
    config.flags[flag] = (not no, line)


def _identifier(config: Config, line: Line, said: str) -> Optional[bool]:
    if address(said) is None:
        return False
    config.identifier = said
    return None


def _cluster(config: Config, line: Line, said: str) -> Optional[bool]:
    asked = number(said)
    if asked is None and address(said) is None:
        return False
    config.cluster, config.cluster_line = said if asked is None else show_address(asked), line
    return None


def _network(config: Config, line: Line, where: str, mask: Optional[str], said: Optional[str]) -> Optional[bool]:
    found = loose_prefix(where, mask or "")
    if found is None:
        return False
    map_name = re.search(r"route-map (\S+)", said or "")
    if "backdoor" in (said or "").split():
        config.tell(line, "%s: FRR then leaves the prefix to the interior routing; here packets follow the "
                    "chosen route" % short(line.text))
        return None
    config.origins.append(Origin("network", line, found, map_name.group(1) if map_name else ""))
    return None


def _redistribute(config: Config, line: Line, kind: str, said: Optional[str]) -> None:
    map_name, metric = re.search(r"route-map (\S+)", said or ""), re.search(r"metric ([0-9]+)", said or "")
    if kind not in ("connected", "static"):
        config.tell(line, "%s: these routes are in no file; FRR originates them. Write `origin ROUTER "
                    "PREFIX` for each" % short(line.text))
        return
    if metric and metric.group(1) != "0":
        config.tell(line, "%s: FRR tells these prefixes with MED %s; here an own route has none. Write `rule .. out "
                    "is PREFIX permit med=%s`" % (
            short(line.text), metric.group(1), metric.group(1)))
    config.origins.append(Origin(kind, line, map=map_name.group(1) if map_name else ""))


def _neighbour(config: Config, line: Line, no: Optional[str], name: str, said: str) -> Optional[bool]:
    """A line `neighbor NAME SAID`."""
    if said == "peer-group" and not no:
        config.groups.setdefault(name, Neighbour(name, line))
        return None
    is_named = name in config.groups or name in config.neighbours or said.startswith("interface")
    table = config.groups if name in config.groups else config.neighbours_six if ":" in name else config.neighbours
    if not is_named and address(name) is None and ":" not in name:
        return False
    here = table.get(name) or Neighbour(name, line)
    is_taken = taken(OF_NEIGHBOUR, line, said, here, no)
    if is_taken or ":" in name:
        table[name] = here
    return is_taken


def _remote(here: Neighbour, no: Optional[str], line: Line, said: str) -> Optional[bool]:
    if not _is_remote(said):
        return False
    here.remote = "" if no else said
    return None


def _is_remote(said: str) -> bool:
    """Whether a word says in which AS a neighbour is."""
    return said in ("internal", "external") or number(said, 1) is not None


def _group(here: Neighbour, no: Optional[str], line: Line, said: str) -> None:
    here.group = "" if no else said


def _unnumbered(here: Neighbour, no: Optional[str], line: Line, said: Optional[str]) -> Optional[bool]:
    words = (said or "").split()
    given = dict(zip(words[::2], words[1::2]))
    if not _is_remote(given.get("remote-as", "external")):
        return False
    here.words["interface"] = (here.name, line)
    here.remote = given.get("remote-as", here.remote)
    here.group = given.get("peer-group", here.group)
    return None


def _neighbour_flag(here: Neighbour, no: Optional[str], line: Line, flag: str) -> None:
    here.flags[flag.split(" ")[0]] = (not no, line)


def _hops(here: Neighbour, no: Optional[str], line: Line, flag: str, count: Optional[str]) -> Optional[bool]:
    if count and number(count, 1, 255) is None:
        return False
    _neighbour_flag(here, no, line, flag)
    here.words[flag + " hops"] = (count or "", line)
    return None


def _force(here: Neighbour, no: Optional[str], line: Line) -> None:
    here.flags["next-hop-self"] = here.flags["force"] = (not no, line)


def _filter(here: Neighbour, no: Optional[str], line: Line, kind: str, name: str, way: str) -> None:
    if no:
        here.filters.pop((kind, way), None)
    else:
        here.filters[kind, way] = (name, line)


def _setting(here: Neighbour, no: Optional[str], line: Line, name: str, said: str) -> Optional[bool]:
    if no:
        here.words.pop(name, None)
    elif name == "update-source" and no_address(said):
        return False
    else:
        here.words[name] = (said, line)
    return None


def _timers(here: Neighbour, no: Optional[str], line: Line, alive: Optional[str],
            hold: Optional[str]) -> Optional[bool]:
    if not no and not interior.are_timers(alive or "", hold or ""):
        return False
    _setting(here, no, line, "hold", hold or "")
    return None


def _local_as(here: Neighbour, no: Optional[str], line: Line, said: str) -> bool:
    """The AS that the other end sees; it is told, too."""
    if number(said.split(" ")[0], 1) is not None:
        _setting(here, no, line, "local-as", said)
    return False


def _watched(here: Neighbour, no: Optional[str], line: Line, said: Optional[str]) -> bool:
    """A session that BFD watches, which alone decides no route."""
    here.flags["bfd"] = (not no, line)
    if (said or "").startswith("strict"):
        here.flags["bfd-strict"] = (not no, line)
    return False


def _default_originate(here: Neighbour, no: Optional[str], line: Line, said: Optional[str]) -> None:
    _neighbour_flag(here, no, line, "default-originate")
    if said:
        here.words["default-map"] = (said, line)


def _as_without(here: Neighbour, no: Optional[str], line: Line) -> None:
    """The line says what there is without it."""


# A route map

def _match(config: Config, entry: Entry, line: Line, kind: str, name: str) -> None:
    called = {"ip address prefix-list": "prefix-list", "ip address": "access-list"}.get(kind, kind)
    entry.matches[called] = (name, line)


def _set_community(config: Config, entry: Entry, line: Line, said: str) -> Optional[bool]:
    if given(said) is None:
        return False
    entry.settings["community"] = (said, line)
    return None


def _set_number(config: Config, entry: Entry, line: Line, kind: str, said: str) -> Optional[bool]:
    if number(said) is None:
        return False
    entry.settings[{"local-preference": "pref", "metric": "med"}[kind]] = (said, line)
    return None


def _set_word(config: Config, entry: Entry, line: Line, kind: str, said: str) -> None:
    entry.settings[{"as-path prepend": "prepend"}.get(kind, kind)] = (said, line)


def _call(config: Config, entry: Entry, line: Line, name: str) -> None:
    entry.call = name


def _goes_on(config: Config, entry: Entry, line: Line, following: Optional[str], target: Optional[str],
             further: Optional[str]) -> None:
    said = target or further
    at = number(said, entry.sequence + 1, 65535) if said else entry.sequence + 1
    if at is None or not entry.is_permit or not said and not following:
        config.tell(line, "%s: FRR goes on from `permit` alone, by `on-match next` or to a higher number, and does not "
                    "take the line" % line.text, False)
        return
    entry.goes_on = at


def _broken(config: Config, entry: Entry, line: Line, said: str) -> bool:
    entry.is_broken = True
    return False


def _keep_entry(config: Config, block: Block, entry: Entry) -> None:
    """The entry at its number; one of another action takes the place of the one before."""
    entries = config.maps.setdefault(block.heads[0].words[1], {})
    known = entries.get(entry.sequence)
    if known is None or known.is_permit != entry.is_permit:
        entries[entry.sequence] = entry
        return
    known.matches.update(entry.matches)
    known.settings.update(entry.settings)
    known.is_broken = known.is_broken or entry.is_broken
    known.call, known.goes_on = entry.call or known.call, known.goes_on if entry.goes_on is None else entry.goes_on


def _takers(*rows: Tuple[str, Callable[..., Optional[bool]]]) -> List[Taker]:
    return [(re.compile(pattern), take) for pattern, take in rows]


TAKERS: Dict[str, List[Taker]] = {
    "top": _takers(
        (r"hostname (\S+)", _hostname), (r"frr defaults (\S+)", _profile),
        (r"frr version (.*)", _version),
        (r"(?:ip )?router-id (\S+)", _interior_identifier), (r"ip route (.+)", _static),
        (r"ip prefix-list (\S+) (?:seq ([0-9]+) )?(permit|deny) (\S+)((?: (?:le|ge) [0-9]+)*)", _prefix_list),
        (r"access-list (\S+) (?:seq ([0-9]+) )?(permit|deny) (.+)", _access_list),
        (r"(?:bgp|ip) as-path access-list (\S+) (?:seq ([0-9]+) )?(permit|deny) (.+)", _path_list),
        (r"(?:bgp|ip) community-list (?:(standard|expanded) (\S+)|([0-9]+)) (?:seq ([0-9]+) )?(permit|deny) (.+)",
         _community_list)),
    "interface": _takers(
        (r"ip address ([0-9.]+)/([0-9]+)(?: label \S+)?()", _address),
        (r"ip address ([0-9.]+)(?:/[0-9]+)? peer ([0-9.]+/[0-9]+)", _address_with_peer),
        (r"ipv6 address (\S+)", _address_six), (r"(?:ip )?ospf cost ([0-9]+)(?: [0-9.]+)?", _cost),
        (r"isis metric ([0-9]+)", _isis_metric), (r"(no )?shut(?:down)?", _shutdown),
        (r"ip ospf(?: [0-9]+)? area ([0-9.]+)(?: [0-9.]+)?|ip router isis (\S+)", _interior),
        (r"(no )?(?:ip ospf|isis) passive", _ospf_passive), *interior.INTERFACE),
    "ospf": _takers(
        *interior.OSPF, (r"network ([0-9.]+/[0-9]+) area (\S+)", _ospf_network),
        (r"(no )?passive-interface (\S+)(?: [0-9.]+)?", _passive),
        (r"redistribute (connected|static)", _ospf_redistribute)),
    "isis": _takers((r"redistribute ipv4 (connected|static) \S+", _ospf_redistribute), *interior.ISIS),
    "bgp": _takers(
        *interior.BGP,
        (r"bgp router-id (\S+)", _identifier), (r"bgp cluster-id (\S+)", _cluster),
        (r"(no )?(bgp (?:ebgp-requires-policy|network import-check|deterministic-med|always-compare-med|bestpath "
         r"compare-routerid|disable-ebgp-connected-route-check))", _flag),
        (r"(no )?(bgp default ipv4-unicast)", _flag), (r"(no )?(bgp shutdown)(?: message .+)?", _flag),
        (r"bgp default local-preference 100()", lambda c, line, _: None),
        (r"network (\S+)(?: mask (\S+))?((?: route-map \S+| label-index [0-9]+| backdoor)*)", _network),
        (r"redistribute (\S+)( .+)?", _redistribute), (r"(no )?neighbor (\S+) (.+)", _neighbour)),
    "map": _takers(
        (r"match (ip address prefix-list|ip address|as-path) (\S+)", _match),
        (r"match (community) (\S+(?: exact-match| any)?)", _match), (r"set community (.+)", _set_community),
        (r"set (local-preference|metric) ([0-9]+)", _set_number),
        (r"set (as-path prepend|weight|ip next-hop) (.+)", _set_word), (r"set (comm-list) (\S+) delete", _set_word),
        (r"call (\S+)", _call), (r"on-match (next)|on-match goto ([0-9]+)|continue(?: ([0-9]+))?", _goes_on),
        (r"((?:match|call|on-match|continue).*)", _broken)),
}

OF_NEIGHBOUR: List[Taker] = _takers(
    (r"remote-as (\S+)", _remote), (r"peer-group (\S+)", _group),
    (r"interface(?: v6only)?((?: remote-as \S+| peer-group \S+)*)", _unnumbered),
    (r"(route-reflector-client|next-hop-self|activate|passive|disable-connected-check)", _neighbour_flag),
    (r"(send-community)(?: standard| both| all)?", _neighbour_flag),
    (r"(shutdown)(?: message .+)?", _neighbour_flag),
    (r"(ebgp-multihop)(?: ([0-9]+))?", _hops), (r"(ttl-security) hops ([0-9]+)", _hops),
    (r"next-hop-self (?:force|all)", _force),
    (r"(route-map|prefix-list|filter-list|distribute-list) (\S+) (in|out)", _filter),
    (r"(update-source|password|local-role) (.+)", _setting), (r"timers(?: ([0-9]+) ([0-9]+))?", _timers),
    (r"local-as (.+)", _local_as), (r"bfd(?: (.+))?", _watched),
    (r"default-originate(?: route-map (\S+))?", _default_originate), (r"weight 0|port 179", _as_without))
