"""Updates of a collector (BGP4MP, RFC 6396, 4.4) as feeds and withdrawals in their order, with their times.

A peer's session goes down where a record says so: a change of its state, a NOTIFICATION, an OPEN. It comes up where
one says so, or by an update. A route that cannot be taken withdraws what its peer told before, as RFC 7606 has it."""
from __future__ import annotations

from dataclasses import dataclass, field
from functools import partial
from typing import Callable, Optional, Set

from ...program.language import show_prefix
from . import bgp_messages, feeds, mrt
from .bgp_messages import Header, Update
from .mrt import Record
from .mrt_feeds import READ, RECORDS, TAKEN, Dump, Place, address_of
from .selection import Prefix, Selection

MESSAGES = "messages that hold no routes of IPv4 unicast were left out"
NOTES = "updates that are not replayed as they stand"


@dataclass
class Span:
    """Of which times updates are replayed, in microseconds since 1970: from `begin` on, and before `end`.

    `table` is when the table was dumped, `seen` the last time of all updates, and `now` where the replay is."""
    begin: Optional[int] = None
    end: Optional[int] = None
    table: Optional[int] = None
    seen: Optional[int] = None
    now: Optional[int] = None
    is_past: bool = False
    # Whose sessions are down, and who has told something since its session came up.
    down: Set[str] = field(default_factory=set)
    active: Set[str] = field(default_factory=set)


class Updates(Dump):
    """The records of a file of updates or of a table. `has_times`: the time of a table is written, too."""

    def __init__(self, path: str, reading: feeds.Reading, selection: Selection, reads_communities: bool, span: Span,
                 has_times: bool = False) -> None:
        super().__init__(path, reading, selection, reads_communities)
        self.span, self.has_times = span, has_times

    def begun(self, record: Record) -> None:
        """A table begins."""
        if self.has_times and self.span.table is None:
            self.span.table = self.span.seen = record.seconds * bgp_messages.SECOND
            self.selection.hold(partial(self._at, self.span.table))

    def other(self, record: Record) -> None:
        """A record that is of no table."""
        is_state, is_message = record.subtype in bgp_messages.STATES, record.subtype in bgp_messages.MESSAGES
        if record.kind not in (mrt.BGP4MP, mrt.BGP4MP_ET) or not (is_state or is_message):
            super().other(record)
            return
        header, rest = bgp_messages.header_of(record)
        who = address_of(header.peer)
        if is_state:
            _, after = bgp_messages.states_of(rest)
            if self._is_of_span(header) and self.selection.has_peer(who, header.peer.asn):
                self._state(header, who, after)
            return
        kind, content = bgp_messages.message_of(rest)
        if kind != bgp_messages.UPDATE:
            self.omissions.note(MESSAGES, bgp_messages.TYPES.get(kind, "of the type %d" % kind))
            if kind in (bgp_messages.OPEN, bgp_messages.NOTIFICATION) and self._is_of_span(header):
                self._down(header, who)
        elif record.subtype in bgp_messages.SENT:
            self.omissions.note(RECORDS, "updates that the collector sent")
        elif record.subtype in bgp_messages.ADD_PATH:
            self.skip(record)
        elif self._is_of_span(header):
            self._update(record, header, who, bgp_messages.update_of(content))

    def _is_of_span(self, header: Header) -> bool:
        """Whether a record is of a time that is asked for, and not in the table already."""
        span = self.span
        if span.end is not None and header.time >= span.end:
            span.is_past = True
            return False
        span.seen = max(header.time, span.seen or 0)
        if span.table is not None and header.time < span.table:
            self.omissions.note(NOTES, "of times before the table, which has them")
            return False
        return True

    # Sessions

    def _state(self, header: Header, who: str, after: int) -> None:
        if after != bgp_messages.ESTABLISHED:
            self._down(header, who)
            return
        if who in self.span.active or self.span.table is not None and who not in self.span.down:
            self._down(header, who)
        self._up(header, who)

    def _down(self, header: Header, who: str) -> None:
        if who not in self.span.down:
            self.span.down.add(who)
            self.span.active.discard(who)
            self.selection.hold(partial(self._session, header, who, self.reading.stop))

    def _up(self, header: Header, who: str) -> None:
        if who in self.span.down:
            self.span.down.discard(who)
            self.selection.hold(partial(self._session, header, who, self.reading.start))

    def _session(self, header: Header, who: str, change: Callable[[str], None]) -> None:
        if who in self.reading.peers:
            self._at(header.time)
            change(who)

    # Routes

    def _update(self, record: Record, header: Header, who: str, found: Update) -> None:
        self.omissions.note_six(found.six)
        if found.others:
            self.omissions.note(RECORDS, "updates of other address families", found.others)
        for where in found.withdrawn:
            if self._is_wanted(header, who, where):
                self.selection.offer(where, partial(self._withdraw, header, who, where), is_route=False)
        for where in found.announced:
            if self._is_wanted(header, who, where):
                self.selection.offer(where, partial(self._announce, record, header, where, found))
        if found.withdrawn or found.announced:
            self.span.active.add(who)

    def _is_wanted(self, header: Header, who: str, where: Prefix) -> bool:
        """Whether a route is one of those that are asked for. Its peer's session is up then."""
        if not (self.selection.has_peer(who, header.peer.asn) and self.selection.has_prefix(where)):
            return False
        if who in self.span.down:
            self.omissions.note(NOTES, "that show a session to be up that no record says is up")
            self._up(header, who)
        return True

    def _withdraw(self, header: Header, who: str, where: Prefix) -> None:
        if who in self.reading.peers:
            self._at(header.time)
            self.reading.withdraw(who, show_prefix(where))

    def _announce(self, record: Record, header: Header, where: Prefix, found: Update) -> None:
        place = Place(self.path, record, show_prefix(where), address_of(header.peer))
        self._at(header.time)
        feed = self.feed(place, header.peer, found.entry, header.width)
        if feed is None:
            self.reading.withdraw_held(place.who, place.prefix)
        elif self.reading.update(feed, place):
            self.note_attributes(found.entry, header.peer, TAKEN + READ)

    # Times

    def _at(self, time: int) -> None:
        """What comes next is of this time. Times do not go back: a file may be out of order."""
        span = self.span
        if span.now is not None and time < span.now:
            self.omissions.note(NOTES, "that are earlier than one before them, and are given its time")
        span.now = max(time, span.now or 0)
        if not self.reading.is_begun and span.begin is not None and span.now >= span.begin:
            self.reading.begin(span.begin)
        self.reading.at(span.now)

    def end(self) -> None:
        """All is replayed: the time until which nothing more happens is written."""
        span = self.span
        if not self.reading.is_begun:
            self.reading.begin(span.begin)
        last = span.end if span.is_past else span.seen
        if last is not None and span.now is not None and last >= (span.begin or 0):
            self.reading.at(max(last, span.now))
