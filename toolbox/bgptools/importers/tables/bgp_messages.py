"""Messages of BGP (RFC 4271) and states of sessions, as records of BGP4MP hold them (RFC 6396, 4.4).

Of an UPDATE the routes of IPv4 unicast are read, also those of MP_REACH_NLRI and MP_UNREACH_NLRI (RFC 4760); others are
counted. AS numbers of two bytes are made whole by AS4_PATH (RFC 6793). What is cut off raises Short."""
from __future__ import annotations

from dataclasses import dataclass, field
from typing import Dict, List, NamedTuple, Tuple

from .mrt import BGP4MP_ET, Bytes, Entry, Peer, Record, Segment, Short, entry_of, segments_of

Prefix = Tuple[int, int]
# What the subtypes hold, and the bytes of their AS numbers.
STATES, MESSAGES = {0: 2, 5: 4}, {1: 2, 4: 4, 6: 2, 7: 4, 8: 2, 9: 4, 10: 2, 11: 4}
# Of those that the collector sent itself, and of those whose routes have a path identifier each (RFC 8050).
SENT, ADD_PATH = (6, 7, 10, 11), (8, 9, 10, 11)
SUBTYPES = {2: "BGP4MP_ENTRY", 3: "BGP4MP_SNAPSHOT"}
# The types of messages, and the state in which routes are exchanged.
OPEN, UPDATE, NOTIFICATION = 1, 2, 3
TYPES = {OPEN: "OPEN", UPDATE: "UPDATE", NOTIFICATION: "NOTIFICATION", 4: "KEEPALIVE", 5: "ROUTE-REFRESH"}
ESTABLISHED = 6
AS_PATH, MP_REACH, MP_UNREACH, AS4_PATH = 2, 14, 15, 17
SET, SEQUENCE = 1, 2
IPV4, IPV6, UNICAST = 1, 2, 1
SECOND = 1000000


class Header(NamedTuple):
    """What stands before a message or the states: the peer, how many bytes AS numbers have, and the time in
    microseconds since 1970."""
    peer: Peer
    width: int
    time: int


@dataclass
class Update:
    """An UPDATE: prefixes of IPv4 unicast, and the attributes of those that are announced. `six` and `others` count the
    prefixes of IPv6, and of other address families."""
    withdrawn: List[Prefix] = field(default_factory=list)
    announced: List[Prefix] = field(default_factory=list)
    entry: Entry = field(default_factory=lambda: Entry(0))
    six: int = 0
    others: int = 0


def header_of(record: Record) -> Tuple[Header, Bytes]:
    """The beginning of a record of BGP4MP, and what stands behind it; raises Short."""
    rest = Bytes(record.content)
    time = record.seconds * SECOND + (rest.number(4) if record.kind == BGP4MP_ET else 0)
    width = STATES.get(record.subtype) or MESSAGES[record.subtype]
    asn = rest.number(width)
    rest.take(width + 2)
    family = rest.number(2)
    if family not in (IPV4, IPV6):
        raise Short("its peers have addresses of the family %d, and 1 or 2 is expected" % family)
    length = 4 if family == IPV4 else 16
    address = rest.take(length)
    rest.take(length)
    return Header(Peer(address, asn), width, time), rest


def states_of(rest: Bytes) -> Tuple[int, int]:
    """The state of a session before and after; raises Short."""
    before, after = rest.number(2), rest.number(2)
    rest.end()
    return before, after


def message_of(rest: Bytes) -> Tuple[int, bytes]:
    """The type of a message, and what it holds; raises Short."""
    rest.take(16)
    length, kind = rest.number(2), rest.number(1)
    if length < 19:
        raise Short("a message has at least 19 bytes, and not %d" % length)
    content = rest.take(length - 19)
    rest.end()
    return kind, content


def update_of(content: bytes) -> Update:
    """An UPDATE; raises Short. Attributes that are cut off are told in its entry."""
    rest = Bytes(content)
    found = Update(_prefixes(rest.take(rest.number(2))))
    found.entry = entry_of(0, rest.take(rest.number(2)))
    _reached(found, found.entry.attributes)
    found.announced += _prefixes(rest.take(len(content) - rest.at))
    return found


def _reached(found: Update, attributes: Dict[int, bytes]) -> None:
    """The prefixes of MP_REACH_NLRI and MP_UNREACH_NLRI."""
    for kind, to in ((MP_UNREACH, found.withdrawn), (MP_REACH, found.announced)):
        if kind not in attributes:
            continue
        rest = Bytes(attributes[kind])
        family, safi = rest.number(2), rest.number(1)
        if kind == MP_REACH:
            rest.take(rest.number(1))
            rest.take(1)
        prefixes = rest.take(len(attributes[kind]) - rest.at)
        if (family, safi) == (IPV4, UNICAST):
            to += _prefixes(prefixes)
        elif family == IPV6:
            found.six += _count(prefixes)
        else:
            found.others += 1


def _prefixes(content: bytes) -> List[Prefix]:
    """Prefixes of IPv4 one behind the other (RFC 4271, 4.3)."""
    rest, found = Bytes(content), []
    while rest.is_left:
        length = rest.number(1)
        if length > 32:
            raise Short("a prefix of IPv4 has at most 32 bits, and not %d" % length)
        value = int.from_bytes(rest.take((length + 7) // 8).ljust(4, b"\0"), "big")
        found.append((value >> (32 - length) << (32 - length), length))
    return found


def _count(content: bytes) -> int:
    """How many prefixes of any family stand one behind the other."""
    rest, count = Bytes(content), 0
    while rest.is_left:
        rest.take((rest.number(1) + 7) // 8)
        count += 1
    return count


def path_of(attributes: Dict[int, bytes], width: int) -> List[Segment]:
    """The segments of the path, whose AS numbers have so many bytes; raises Short.

    Of two bytes, those that AS4_PATH has take the place of as many at the end (RFC 6793, 4.2.3)."""
    segments = segments_of(attributes[AS_PATH], width)
    if width == 4 or AS4_PATH not in attributes:
        return segments
    whole = [each for each in segments_of(attributes[AS4_PATH]) if each[0] in (SET, SEQUENCE)]
    left = _length(segments) - _length(whole)
    return segments if left < 0 else _joined(_first(segments, left), whole)


def _length(segments: List[Segment]) -> int:
    """How many AS numbers a path counts: a set is one, and those of confederations none."""
    return sum(len(numbers) if kind == SEQUENCE else kind == SET for kind, numbers in segments)


def _first(segments: List[Segment], count: int) -> List[Segment]:
    """The first segments of a path that count so many AS numbers."""
    found: List[Segment] = []
    for kind, numbers in segments:
        size = _length([(kind, numbers)])
        if size > count:
            return found + ([(kind, numbers[:count])] if count else [])
        found.append((kind, numbers))
        count -= size
    return found


def _joined(one: List[Segment], other: List[Segment]) -> List[Segment]:
    """A path in front of another; two sequences that meet are one."""
    if one and other and one[-1][0] == other[0][0] == SEQUENCE:
        return one[:-1] + [(SEQUENCE, one[-1][1] + other[0][1])] + other[1:]
    return one + other
