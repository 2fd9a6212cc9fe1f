"""Files of MRT (RFC 6396) as the feeds of one router's peers: records of table dumps here, others by `mrt_updates`."""
from __future__ import annotations

import ipaddress
from functools import partial
from typing import Dict, List, NamedTuple, Optional, Tuple

from ...program.language import show_address, show_prefix
from ...program.language_table import ORIGINS
from ...program.mistakes import Mistake
from . import bgp_messages, feeds, mrt
from .feeds import SIX_PEER, Feed
from .mrt import Entry, Peer, Record, Segment, Short
from .selection import Prefix, Selection

FORM = "routes of IPv4 in records of TABLE_DUMP_V2 or BGP4MP are expected"
ORIGIN, AS_PATH, MED, COMMUNITIES, EXTENDED, LARGE = 1, 2, 4, 8, 16, 32
# What a feed does not have: its next hop is the peer, and preferences are not told between ASes.
LEFT_OUT = {3: "NEXT_HOP", 5: "LOCAL_PREF", 6: "ATOMIC_AGGREGATE", 7: "AGGREGATOR", 9: "ORIGINATOR_ID",
            10: "CLUSTER_LIST", 14: "MP_REACH_NLRI", 17: "AS4_PATH", 18: "AS4_AGGREGATOR", 35: "ONLY_TO_CUSTOMER"}
TAKEN = (ORIGIN, AS_PATH, MED, COMMUNITIES, EXTENDED, LARGE)
# What an update has beside them, and is read.
READ = (14, 15, 17)
ATTRIBUTES = "attributes that a feed does not have were left out"
RECORDS = "records that hold no routes of IPv4 unicast were left out"
# Records of table dumps that have no routes of IPv4 unicast, whatever they hold.
WITHOUT = (3, 5, 7, 9, 11)
RIB_GENERIC = (6, 12)
# Types of records that have no routes of BGP at all.
OF_OTHERS = (11, 32, 33, 48, 49)


class Wrong(Exception):
    """Why a route is not taken over."""


class Place(NamedTuple):
    """Where a route stands: the file, the record, the prefix and who told it."""
    path: str
    record: Record
    prefix: str
    who: str

    def __str__(self) -> str:
        return "%s: %s: %s from %s" % (self.path, self.record.place, self.prefix, self.who)


def path_of(segments: List[Segment]) -> str:
    """A path in the words of the command language; raises Wrong."""
    found: List[str] = []
    run: List[int] = []
    for kind, numbers in segments:
        if kind not in (bgp_messages.SET, bgp_messages.SEQUENCE):
            raise Wrong("its path has a segment of the type %d, as confederations have them, and a path here has "
                        "sequences and sets" % kind)
        if not numbers or 0 in numbers:
            raise Wrong("its path has %s" % ("the AS number 0" if numbers else "an empty segment"))
        if kind == bgp_messages.SEQUENCE:
            run += numbers
            continue
        found += [",".join(map(str, run))] if run else []
        found.append("{%s}" % ",".join(map(str, sorted(set(numbers)))))
        run = []
    return "_".join(found + ([",".join(map(str, run))] if run else [])) or "-"


def not_modelled(attributes: Dict[int, bytes]) -> List[str]:
    """The large communities of a route, as `7:1:2`, and its extended ones, as numbers; raises Short."""
    large = mrt.numbers_of(attributes.get(LARGE, b""))
    if len(large) % 3:
        raise Short("large communities are of three numbers")
    extended = attributes.get(EXTENDED, b"")
    if len(extended) % 8:
        raise Short("extended communities are of 8 bytes")
    return ["%d:%d:%d" % tuple(large[at:at + 3]) for at in range(0, len(large), 3)] + [
        "0x" + extended[at:at + 8].hex() for at in range(0, len(extended), 8)]


def feed_of(entry: Entry, who: str, asn: int, prefix: str, reads_communities: bool, width: int = 4) -> Feed:
    """A route as a feed; raises Wrong where it has no such form, or Short where an attribute is cut off. AS numbers of
    its path have so many bytes."""
    if entry.wrong:
        raise Wrong(entry.wrong)
    found = entry.attributes
    origin, med = found.get(ORIGIN, b""), found.get(MED)
    for is_wrong, said in ((AS_PATH not in found, "it has no AS_PATH"), (ORIGIN not in found, "it has no ORIGIN"),
                           (len(origin) != 1 or origin[0] > 2, "its ORIGIN is none of IGP, EGP, INCOMPLETE"),
                           (med is not None and len(med) != 4, "its MED is no number of 4 bytes"),
                           (asn == 0, "its peer is of the AS 0")):
        if is_wrong:
            raise Wrong(said)
    marks = sorted(set(mrt.numbers_of(found.get(COMMUNITIES, b"")))) if reads_communities else []
    return Feed(who, asn, prefix, path_of(bgp_messages.path_of(found, width)), ORIGINS[origin[0]],
                "-" if med is None else str(int.from_bytes(med, "big")), marks,
                not_modelled(found) if reads_communities else [])


class Dump:
    """The records of a file, one after the other, as far as they are of table dumps."""

    def __init__(self, path: str, reading: feeds.Reading, selection: Selection, reads_communities: bool) -> None:
        self.path, self.reading, self.selection = path, reading, selection
        self.reads_communities, self.omissions = reads_communities, reading.omissions
        self.peers: Optional[List[Peer]] = None
        self.names: List[str] = []

    def take(self, record: Record) -> None:
        """Takes a record; raises Mistake where it is damaged."""
        try:
            self._take(record)
        except Short as short:
            raise Mistake("%s: the record is damaged: %s" % (record.place, short), self.path) from None

    def _take(self, record: Record) -> None:
        if record.kind != mrt.TABLE_DUMP_V2:
            self.other(record)
        elif record.subtype == mrt.PEER_INDEX_TABLE:
            self.peers = mrt.peers_of(record.content)
            self.names = [address_of(peer) for peer in self.peers]
            self.begun(record)
        elif record.subtype in mrt.RIB_IPV4_UNICAST:
            self._routes(record)
        elif record.subtype in mrt.RIB_IPV6_UNICAST:
            self.omissions.note_six(mrt.count_of_routes(record.content))
        elif record.subtype in WITHOUT or record.subtype in RIB_GENERIC and record.content[4:7] != b"\0\1\1":
            self.omissions.note(RECORDS, record.name)
        else:
            self.skip(record)

    def begun(self, record: Record) -> None:
        """A table begins, by this record."""

    def other(self, record: Record) -> None:
        """A record that is of no table."""
        is_six = record.kind == mrt.TABLE_DUMP and record.subtype == bgp_messages.IPV6
        if is_six or record.kind in OF_OTHERS:
            self.omissions.note(RECORDS, record.name)
        else:
            self.skip(record)

    def skip(self, record: Record) -> None:
        """A record is not read that has routes of IPv4, or may have some."""
        self.omissions.count += 1
        self.omissions.add("records that are left out so", "%s: %s" % (self.path, record.place),
                           "not taken over: %s, which may have routes of IPv4, is not read" % record.name)

    def _routes(self, record: Record) -> None:
        where, entries = mrt.routes_of(record.content, mrt.RIB_IPV4_UNICAST[record.subtype])
        for entry in entries:
            if self.peers is None or entry.peer >= len(self.peers):
                known = "no PEER_INDEX_TABLE is before it" if self.peers is None else "there are %d" % len(self.peers)
                raise Short("a route is of the peer %d, and %s" % (entry.peer, known))
            peer = self.peers[entry.peer]
            if self.selection.has_peer(self.names[entry.peer], peer.asn) and self.selection.has_prefix(where):
                self.selection.offer(where, partial(self._route, record, where, peer, entry))

    def _route(self, record: Record, where: Prefix, peer: Peer, entry: Entry) -> None:
        place = Place(self.path, record, show_prefix(where), address_of(peer))
        feed = self.feed(place, peer, entry)
        if feed and self.reading.take(feed, place):
            self.note_attributes(entry, peer)

    def feed(self, place: Place, peer: Peer, entry: Entry, width: int = 4) -> Optional[Feed]:
        """A route as a feed; or nothing where it has no such form, which is told."""
        try:
            if len(peer.address) > 4:
                raise Wrong(SIX_PEER)
            return feed_of(entry, place.who, peer.asn, place.prefix, self.reads_communities, width)
        except (Wrong, Short) as wrong:
            self.omissions.leave_out(place, str(wrong))
            return None

    def note_attributes(self, entry: Entry, peer: Peer, read: Tuple[int, ...] = TAKEN) -> None:
        """Counts the attributes of a route that a feed does not have, but those that are read."""
        for kind, value in entry.attributes.items():
            if kind not in read and (kind, value) != (3, peer.address):
                self.omissions.note(ATTRIBUTES, LEFT_OUT.get(kind, "of the type %d" % kind))


def address_of(peer: Peer) -> str:
    """The address of a peer as text."""
    if len(peer.address) == 4:
        return show_address(int.from_bytes(peer.address, "big"))
    return str(ipaddress.IPv6Address(peer.address))
