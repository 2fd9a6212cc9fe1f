"""Files of MRT (RFC 6396): their records, and the routes of a table dump of version 2 (with RFC 8050).

What is read is checked against its length: a Mistake names the record, and the byte of the unpacked file at which it
begins."""
# Not by mrtparse: `test_mrt_libraries` says what that does not do.
from __future__ import annotations

import struct
from dataclasses import dataclass, field
from typing import BinaryIO, Dict, Iterator, List, NamedTuple, Tuple

from ...program.mistakes import Mistake

TABLE_DUMP_V2, PEER_INDEX_TABLE = 13, 1
TABLE_DUMP, BGP4MP, BGP4MP_ET = 12, 16, 17
# The subtypes of a table dump, and whether routes have a path identifier each (RFC 8050).
RIB_IPV4_UNICAST = {2: False, 8: True}
RIB_IPV6_UNICAST = {4: False, 10: True}
SUBTYPES = {3: "RIB_IPV4_MULTICAST", 5: "RIB_IPV6_MULTICAST", 6: "RIB_GENERIC", 7: "GEO_PEER_TABLE",
            9: "RIB_IPV4_MULTICAST_ADDPATH", 11: "RIB_IPV6_MULTICAST_ADDPATH", 12: "RIB_GENERIC_ADDPATH"}
TYPES = {11: "OSPFv2", TABLE_DUMP: "TABLE_DUMP", TABLE_DUMP_V2: "TABLE_DUMP_V2", BGP4MP: "BGP4MP",
         BGP4MP_ET: "BGP4MP_ET", 32: "ISIS", 33: "ISIS_ET", 48: "OSPFv3", 49: "OSPFv3_ET"}
# A table of 65535 routes with 1,000 bytes of attributes each.
MOST_BYTES = 1 << 26
EXTENDED_LENGTH = 0x10
# A segment of a path: its type, and its AS numbers.
Segment = Tuple[int, List[int]]


class Short(Exception):
    """Some bytes do not hold what they are said to hold."""


class Record(NamedTuple):
    """A record: where it begins in the unpacked file, its type and subtype, what it holds, its number, from 1 on, and
    its time in seconds since 1970."""
    at: int
    kind: int
    subtype: int
    content: bytes
    number: int = 0
    seconds: int = 0

    @property
    def place(self) -> str:
        """Where it is in the file."""
        return "record %d, byte %d" % (self.number, self.at)

    @property
    def name(self) -> str:
        """What its type, or of a table dump its subtype, is called."""
        if self.kind == TABLE_DUMP_V2:
            return SUBTYPES.get(self.subtype, "TABLE_DUMP_V2 of the subtype %d" % self.subtype)
        return TYPES.get(self.kind, "records of the type %d" % self.kind)


class Bytes:
    """Bytes that are taken from the front; raises Short where they end too early."""

    def __init__(self, content: bytes) -> None:
        self.content, self.at = content, 0

    def take(self, count: int) -> bytes:
        """The next bytes."""
        if self.at + count > len(self.content):
            raise Short("%d bytes of %d are there" % (len(self.content) - self.at, count))
        self.at += count
        return self.content[self.at - count:self.at]

    def number(self, count: int) -> int:
        """The number that the next bytes spell, the highest first."""
        return int.from_bytes(self.take(count), "big")

    @property
    def is_left(self) -> bool:
        """Whether there are more."""
        return self.at < len(self.content)

    def end(self) -> None:
        """Raises Short where there are more."""
        if self.is_left:
            raise Short("it has %d bytes more than are said to be there" % (len(self.content) - self.at))


class Peer(NamedTuple):
    """A peer of the table; its address is of IPv4 or IPv6, as bytes."""
    address: bytes
    asn: int


@dataclass
class Entry:
    """A route of a record: the place of its peer in the table of peers, and its attributes by type, each once.

    `wrong` says why they cannot be read."""
    peer: int
    attributes: Dict[int, bytes] = field(default_factory=dict)
    wrong: str = ""


def records_in(file: BinaryIO, name: str) -> Iterator[Record]:
    """The records of an unpacked file; raises Mistake where it ends within one, or where one is longer than any
    table's."""
    at, count = 0, 0
    while True:
        head = file.read(12)
        if not head:
            return
        count += 1
        seconds, kind, subtype, length = struct.unpack(">IHHI", head) if len(head) == 12 else (0, 0, 0, 0)
        content = file.read(length) if length <= MOST_BYTES else b""
        found = Record(at, kind, subtype, content, count, seconds)
        if length > MOST_BYTES:
            raise Mistake("%s: a record of %d bytes begins, and no table has one of more than %d; it is no MRT "
                          "file, or damaged" % (found.place, length, MOST_BYTES), name)
        if len(head) < 12 or len(content) < length:
            raise Mistake("%s: a record of %s begins, and the file ends after %d of them" % (
                found.place, "%d bytes" % (12 + length) if len(head) == 12 else "12 bytes or more",
                len(head) + len(content)), name)
        yield found
        at += 12 + length


def peers_of(content: bytes) -> List[Peer]:
    """The peers of a PEER_INDEX_TABLE; raises Short."""
    rest = Bytes(content)
    rest.take(4)
    rest.take(rest.number(2))
    peers = []
    for _ in range(rest.number(2)):
        kind = rest.number(1)
        rest.take(4)
        peers.append(Peer(rest.take(16 if kind & 1 else 4), rest.number(4 if kind & 2 else 2)))
    rest.end()
    return peers


def routes_of(content: bytes, has_identifiers: bool) -> "Tuple[Tuple[int, int], List[Entry]]":
    """The prefix of a record of IPv4, and its routes; raises Short."""
    rest = Bytes(content)
    rest.take(4)
    length = rest.number(1)
    if length > 32:
        raise Short("a prefix of IPv4 has at most 32 bits, and not %d" % length)
    value = int.from_bytes(rest.take((length + 7) // 8).ljust(4, b"\0"), "big")
    entries = []
    for _ in range(rest.number(2)):
        peer = rest.number(2)
        rest.take(8 if has_identifiers else 4)
        entries.append(entry_of(peer, rest.take(rest.number(2))))
    rest.end()
    # Bits behind the length are of no meaning (RFC 4271, 4.3).
    return (value >> (32 - length) << (32 - length), length), entries


def count_of_routes(content: bytes) -> int:
    """How many routes a record of IPv6 has; raises Short."""
    rest = Bytes(content)
    rest.take(4)
    rest.take((rest.number(1) + 7) // 8)
    return rest.number(2)


def entry_of(peer: int, content: bytes) -> Entry:
    """A route of a record, or the attributes of a message. Of an attribute that is there twice the first one counts
    (RFC 7606)."""
    rest, entry = Bytes(content), Entry(peer)
    try:
        while rest.is_left:
            flags, kind = rest.take(2)
            entry.attributes.setdefault(kind, rest.take(rest.number(2 if flags & EXTENDED_LENGTH else 1)))
    except Short as short:
        entry.wrong = "an attribute is cut off: %s" % short
    return entry


def segments_of(content: bytes, width: int = 4) -> List[Segment]:
    """The segments of an AS_PATH with AS numbers of so many bytes, 4 or 2, each with its type; raises Short."""
    rest = Bytes(content)
    segments = []
    while rest.is_left:
        kind = rest.number(1)
        count = rest.number(1)
        numbers = list(struct.unpack(">%d%s" % (count, "I" if width == 4 else "H"), rest.take(width * count)))
        segments.append((kind, numbers))
    return segments


def numbers_of(content: bytes) -> List[int]:
    """The numbers of 4 bytes that are there one behind the other; raises Short."""
    if len(content) % 4:
        raise Short("%d bytes are no numbers of 4 bytes" % len(content))
    return list(struct.unpack(">%dI" % (len(content) // 4), content))
