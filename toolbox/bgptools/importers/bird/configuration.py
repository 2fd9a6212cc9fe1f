"""A router's BIRD configuration, kept as a router's: what the modules of FRR's configurations make a network of."""
from __future__ import annotations

from dataclasses import dataclass, field
from typing import Dict, List, NamedTuple, Optional, Tuple

from ..common.configuration import NOWHERE, Config, Interface, Line, Neighbour, Prefix, Said
from .filters import Function, Node

# What the modules that both importers use say of FRR, in BIRD's words.
_SAID = (("from-frr", "from-bird"), ("FRR", "BIRD"), ("`next-hop-self`", "`next hop self`"),
         ("`router bgp`", "`protocol bgp`"), ("by weight", "by its own preference"),
         ("`ebgp-multihop`", "`multihop`"), ("it has no remote-as", "it has no AS number"),
         ("OSPF, IS-IS or static route", "OSPF or static route"), ("OSPF or IS-IS", "OSPF"))
ACCEPT, REJECT = Node("accept", (), NOWHERE), Node("reject", (), NOWHERE)


class Policy(NamedTuple):
    """A policy of a channel: the line that gives it, the filter's name where it has one, or its statements."""
    line: Line
    name: str
    statements: Tuple[Node, ...] = ()


@dataclass
class Session(Neighbour):
    """A protocol of BGP, by the name of its neighbour's address. Filters are `policies`, by their way."""
    protocol: str = ""
    local: str = ""
    asn: Optional[int] = None
    is_direct: Optional[bool] = None
    policies: Dict[str, Policy] = field(default_factory=dict)
    preference: int = 100

    def is_external_in(self, config: "BirdConfig") -> bool:
        """Whether its neighbour is in another AS than the router."""
        return self.remote != "internal" and self.remote != str(config.asn)

    def is_on_a_link(self, config: "BirdConfig") -> bool:
        """Whether its two addresses are on one subnet: as BIRD has it where nothing else is said, between two ASes."""
        return self.is_external_in(config) if self.is_direct is None else self.is_direct


class OwnRoute(NamedTuple):
    """A route that is not of BGP: its prefix, and what a filter may ask of it."""
    where: Prefix
    line: Line
    source: str
    proto: str
    dest: str


class BirdConfig(Config):
    """One router's file."""

    def __init__(self, name: str, files: List[str]) -> None:
        super().__init__(name, files)
        self.filters: Dict[str, Tuple[Node, ...]] = {}
        self.functions: Dict[str, Function] = {}
        self.constants: Dict[str, Node] = {}
        self.routes: List[OwnRoute] = []
        # The protocols by their names, with what they are; `direct` is the one of the subnets.
        self.protocols: Dict[str, str] = {}
        self.direct: Optional[Tuple[str, Line]] = None
        # The interfaces that it takes, by patterns of their names.
        self.only: List[str] = ["*"]
        self.has_addresses = False
        # Patterns of OSPF's interfaces, in order: names and prefixes, and what they get.
        self.patterns: List[Pattern] = []
        self.stubs: List[Prefix] = []

    def tell(self, line: Line, text: str, decides: bool = True, is_certain: bool = True) -> None:
        """Keeps what is not taken over; what is said of FRR in BIRD's words."""
        about, colon, rest = text.partition(": ")
        for other, said in _SAID:
            about, rest = (about, rest.replace(other, said)) if colon else (about.replace(other, said), rest)
        super().tell(line, about + colon + rest, decides, is_certain)

    def is_on(self, flag: str) -> bool:
        """Whether a setting of the router is on. Of FRR's only those of its sessions are known here."""
        return self.flags[flag][0] if flag in self.flags else flag == "bgp default ipv4-unicast"

    def settled(self, neighbour: Neighbour) -> Neighbour:
        """The neighbour: what its templates say, it has got when it was read."""
        return neighbour

    def own_name(self) -> str:
        """The router's address: its `router id`, else the address of its first session that gives one."""
        known = (each.local for each in self.neighbours.values() if isinstance(each, Session) and each.local)
        return self.identifier or next(known, "")

    def sessions(self) -> List[Session]:
        """Its protocols of BGP over IPv4."""
        return [each for each in self.neighbours.values() if isinstance(each, Session)]


class Pattern(NamedTuple):
    """A pattern of OSPF's interfaces: a name with `*`, a prefix, or both; what is `-` is left out."""
    line: Line
    name: str
    where: Optional[Prefix]
    is_out: bool
    cost: Optional[int]
    is_stub: bool
    said: Dict[str, Said]
    keys: Dict[str, Said]


def interface_of(config: Config, name: str, line: Line) -> Interface:
    """An interface, which is made where it is not there."""
    return config.interfaces.setdefault(name, Interface(name, line))
