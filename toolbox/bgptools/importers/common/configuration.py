"""One router's configuration, of whatever kind its files are: interfaces, neighbours, lists and origins, and what is
not taken over."""
from __future__ import annotations

import re
from collections import Counter
from dataclasses import dataclass, field
from typing import Callable, Dict, List, NamedTuple, Optional, Pattern, Set, Tuple

from ...program.language import address, number
from .omission_table import category, consequence

Prefix = Tuple[int, int]


@dataclass(frozen=True)
class Line:
    """A line with one space between words. `undoes`: it takes a line before it back."""
    file: str
    number: int
    text: str
    undoes: bool = False

    @property
    def words(self) -> List[str]:
        return self.text.split(" ")


NOWHERE = Line("", 0, "")
ALL: Prefix = (0, 0)


class Told(NamedTuple):
    """What is not taken over, whether it may decide a route, and whether it is sure to change this network."""
    file: str
    line: int
    text: str
    decides: bool = True
    is_certain: bool = True


Said = Tuple[str, Line]


@dataclass
class Hello:
    """What a router says over an interface in OSPF or IS-IS, by the names of its settings, each with the line that
    says so; `has_keys` are the passwords that it takes from the other end."""
    settings: Dict[str, Said] = field(default_factory=dict)
    has_keys: Tuple[str, ...] = ()

    def word(self, name: str) -> str:
        """What a setting says; empty where it says nothing."""
        return self.settings.get(name, ("", NOWHERE))[0]

    def at(self, name: str) -> Line:
        """The line of a setting."""
        return self.settings.get(name, ("", NOWHERE))[1]


@dataclass
class Address:
    """An address of an interface, with its subnet, and the address at the other end where that is named."""
    own: str
    length: int
    line: Line
    opposite: str = ""
    subnet: Prefix = field(init=False)
    # What the router says over it in OSPF and in IS-IS, by the protocol's name.
    hellos: Dict[str, Hello] = field(default_factory=dict)

    def __post_init__(self) -> None:
        value = address(self.opposite or self.own) or 0
        self.subnet = masked(value, 32 if self.opposite else self.length)


@dataclass
class Interface:
    """An interface. `interior` is the line that puts it into OSPF or IS-IS by itself; `six` are its subnets of IPv6,
    each with its own address."""
    name: str
    line: Line
    cost: int = 10
    has_cost: bool = False
    is_down: bool = False
    addresses: List[Address] = field(default_factory=list)
    interior: Optional[Line] = None
    six: List[Tuple[str, str]] = field(default_factory=list)
    # What it says of OSPF and IS-IS, by the first words of the line.
    said: Dict[str, Said] = field(default_factory=dict)
    keys: Dict[str, Said] = field(default_factory=dict)


@dataclass
class Neighbour:
    """A neighbour, or a group of them. Flags that are not there are the group's; `filters` are by kind and
    direction."""
    name: str
    line: Line
    remote: str = ""
    group: str = ""
    flags: Dict[str, Tuple[bool, Line]] = field(default_factory=dict)
    filters: Dict[Tuple[str, str], Tuple[str, Line]] = field(default_factory=dict)
    words: Dict[str, Tuple[str, Line]] = field(default_factory=dict)

    def has(self, flag: str) -> bool:
        """Whether the flag is set."""
        return self.flags.get(flag, (False, self.line))[0]

    def word(self, name: str) -> str:
        """What a setting with a word says."""
        return self.words.get(name, ("", self.line))[0]

    def at(self, flag: str) -> Line:
        """The line of a flag or a setting, or of the neighbour."""
        return self.flags.get(flag, self.words.get(flag, (False, self.line)))[1]


@dataclass
class Entry:
    """An entry of a route map. Each kind of match counts once, the last one of it. `call` is a map that it calls, and
    `goes_on` the least number of the entry that it goes on to behind that."""
    is_permit: bool
    sequence: int
    line: Line
    matches: Dict[str, Tuple[str, Line]] = field(default_factory=dict)
    settings: Dict[str, Tuple[str, Line]] = field(default_factory=dict)
    is_broken: bool = False
    call: str = ""
    goes_on: Optional[int] = None


@dataclass
class Item:
    """An entry of a prefix list or an access list (a prefix with the lengths that it is about; `wild` is any that has
    the same first bits), of an as-path list or an expanded community list (`said`), or of a standard one
    (`numbers`)."""
    is_permit: bool
    line: Line
    where: Prefix = ALL
    least: int = 0
    most: int = 32
    said: str = ""
    is_wild: bool = False
    numbers: Tuple[int, ...] = ()


class Entries(Dict[int, Item]):
    """The entries of a list by their numbers; `highest` is the greatest one, and `said` what those of a community list
    say."""

    def __init__(self) -> None:
        super().__init__()
        self.highest = 0
        self.said: Set[Tuple[bool, str, Tuple[int, ...]]] = set()


@dataclass
class Origin:
    """A `network`, or a `redistribute` of a kind of routes."""
    kind: str
    line: Line
    where: Prefix = ALL
    map: str = ""


@dataclass
class Static:
    """A static route: its prefix, and where it leads: an address, an interface, or nothing."""
    where: Prefix
    line: Line
    way: str


def masked(value: int, length: int) -> Prefix:
    """The prefix of an address."""
    return value >> (32 - length) << (32 - length), length


def loose_prefix(text: str, mask: str = "") -> Optional[Prefix]:
    """A prefix as FRR takes one: bits behind its length are dropped; a mask may follow, and without one the class of
    the address counts."""
    first, slash, last = text.partition("/")
    at, wide = address(first), address(mask) if mask else None
    if at is None or mask and (wide is None or slash):
        return None
    if wide is not None:
        length: Optional[int] = bin(wide).count("1")
        return masked(at, length or 0) if masked(2 ** 32 - 1, length or 0)[0] == wide else None
    length = number(last, 0, 32) if slash else 8 if at < 2 ** 31 else 16 if at < 3 * 2 ** 30 else 24
    return None if length is None else masked(at, length)


class Config:
    """One router's files."""

    def __init__(self, name: str, files: List[str]) -> None:
        self.name, self.files = name, files
        self.asn: Optional[int] = None
        self.line = Line(files[0], 1, "")
        self.identifier = self.interior_identifier = self.cluster = self.hostname = ""
        self.hostname_line = self.cluster_line = NOWHERE
        self.flags: Dict[str, Tuple[bool, Line]] = {}
        self.profile, self.version = "traditional", (99, 0)
        self.interfaces: Dict[str, Interface] = {}
        self.neighbours: Dict[str, Neighbour] = {}
        self.groups: Dict[str, Neighbour] = {}
        self.neighbours_six: Dict[str, Neighbour] = {}
        self.origins: List[Origin] = []
        self.statics: List[Static] = []
        self.maps: Dict[str, Dict[int, Entry]] = {}
        self.prefix_lists: Dict[str, Entries] = {}
        self.access_lists: Dict[str, Entries] = {}
        self.path_lists: Dict[str, Entries] = {}
        self.community_lists: Dict[str, Entries] = {}
        self.has_ospf = self.has_isis = False
        self.ospf_networks: List[Prefix] = []
        self.ospf_areas: List[Said] = []
        self.areas: Dict[str, Line] = {}
        self.passive: Dict[str, bool] = {}
        # The words of all lines but those that make a list, and of the heads of route maps.
        self.words: Set[str] = set()
        # Interfaces that other lines ask for by their names.
        self.asked: List[Tuple[Line, str]] = []
        self.ospf_redistributes: Dict[str, Line] = {}
        # What OSPF's and IS-IS' own blocks say, by the first words of the line.
        self.said: Dict[str, Said] = {}
        self.told: Dict[Told, None] = {}
        self.counts: "Counter[str]" = Counter()
        self.counted: Set[Line] = set()

    # What is told and counted

    def tell(self, line: Line, text: str, decides: bool = True, is_certain: bool = True) -> None:
        """Keeps what is not taken over, with the line that it is about; what is sure to change this network is told
        before what may."""
        self.told[Told(line.file, line.number, text, decides, is_certain)] = None

    def count(self, said: str, how_many: int = 1) -> None:
        """Counts lines that decide no route."""
        self.counts[said] += how_many

    def count_line(self, said: str, line: Line) -> None:
        """Counts a line that is met several times once."""
        if line not in self.counted:
            self.counted.add(line)
            self.count(said)

    def leave_out(self, kind: str, line: Line, text: str, is_off: bool = False) -> None:
        """A line that is not taken over: counted, or told with what comes of it. `is_off`: it says `no` to what is off
        without it."""
        positive = text[3:] if text.startswith("no ") else text
        counted, comes = category(kind, positive), consequence(kind, text)
        if comes is not None:
            self.tell(line, "%s: %s" % (short(line.text), comes))
        elif counted is not None:
            self.count(counted)
        elif positive != text and (is_off or line.undoes or consequence(kind, positive) is not None):
            self.count("what is off by default")
        else:
            self.tell(line, "%s: %s" % (short(line.text), no_address(text) or "from-frr does not know this line"))

    # Defaults, which follow the profile and the version

    @property
    def hold_time(self) -> str:
        """The hold time that it gives without a line, in seconds."""
        return "180" if self.profile != "datacenter" else "9"

    def is_on(self, flag: str) -> bool:
        """Whether a setting of the router is on, by its line or by default."""
        is_old, is_traditional = self.version < (7, 4), self.profile != "datacenter"
        defaults = {"bgp ebgp-requires-policy": is_traditional and not is_old,
                    "bgp network import-check": not (is_traditional and is_old),
                    "bgp deterministic-med": not is_traditional, "bgp default ipv4-unicast": True}
        return self.flags[flag][0] if flag in self.flags else defaults.get(flag, False)

    # Names

    def own_name(self) -> str:
        """The router's address: its router-id, else the highest of the loopback, else the highest of all, as FRR takes
        it; empty where it has none."""
        found = {name: [each.own for each in interface.addresses] for name, interface in self.interfaces.items()
                 if not interface.is_down}
        own = found.get("lo") or [each for addresses in found.values() for each in addresses]
        return self.identifier or self.interior_identifier or max(own, key=lambda each: address(each) or 0, default="")

    def settled(self, neighbour: Neighbour) -> Neighbour:
        """A neighbour with what its group says."""
        group = self.groups.get(neighbour.group, Neighbour("", neighbour.line))
        return Neighbour(neighbour.name, neighbour.line, neighbour.remote or group.remote, neighbour.group,
                         {**group.flags, **neighbour.flags},
                         {**group.filters, **neighbour.filters}, {**group.words, **neighbour.words})

    def subnet_of(self, where: str) -> Optional[Tuple[Interface, Address]]:
        """The interface, and its address, in whose subnet an address is; nothing for what is no address."""
        value = address(where)
        if value is None:
            return None
        return next(((interface, each) for interface in self.interfaces.values() for each in interface.addresses
                     if each.opposite == where or not each.opposite and each.length < 32
                     and masked(value, each.length) == each.subnet), None)


def short(text: str) -> str:
    """A line as it is quoted: not too long, and what cannot be shown escaped."""
    shown = "".join(each if each.isprintable() else each.encode("unicode_escape").decode() for each in text)
    return shown if len(shown) <= 70 else shown[:67] + "..."


_DOTTED = re.compile(r"(?<![\w.:])([0-9]+(?:\.[0-9]+){2,3})(?:/[0-9]+)?(?![\w.:])")


def no_address(text: str) -> str:
    """What is wrong with the first word of a line that is meant for an address and is none; else empty."""
    wrong = next((found for found in _DOTTED.findall(text) if address(found) is None), "")
    return "`%s` is no address, four numbers of 0 to 255 as in 10.0.0.1" % short(wrong) if wrong else ""


def place(line: Line) -> str:
    """A line as it is named from another one."""
    return "%s:%d" % (line.file, line.number)


Taker = Tuple[Pattern[str], Callable[..., Optional[bool]]]


def taken(takers: List[Taker], line: Line, text: str, *given: object) -> bool:
    """Whether one of the takers takes the line; one that finds it malformed gives False."""
    for pattern, take in takers:
        found = pattern.fullmatch(text)
        if found:
            return take(*given, line, *found.groups()) is not False
    return False


def sets_some(config: Config, map_name: str) -> bool:
    """Whether an entry of a map, or of one that it calls, gives communities to a route."""
    seen, waiting = {map_name}, [map_name]
    while waiting:
        entries = config.maps.get(waiting.pop(), {}).values()
        if any(entry.settings.get("community", ("none",))[0] != "none" for entry in entries):
            return True
        called = {entry.call for entry in entries if entry.call} - seen
        seen |= called
        waiting += sorted(called)
    return False
