"""What was done on a shared network, and who did it: its log, the seats and times beside that, and the edits."""
from __future__ import annotations

import time
from collections import Counter
from typing import Any, Callable, Dict, List, Optional

from ..convergence.delivery import MEMORY
from ..network.configuration import Network
from ..program.language import words_of
from ..program.line_count import is_accepted
from ..program.mistakes import Mistake
from ..program.provenance import Provenance
from ..program.replies import refusal
from .events import Events
from .history import Edit, History
from .log import Entry, Log
from .meter import Meter
from .notes import LATEST, Note, Notes
from .seats import Seats

SYNTAX = 1
# What is left of a log for changes when questions are no more recorded: two lines for each.
RESERVE = 3000000
# The part of a log's bytes up to which questions are recorded.
QUESTIONS_PART = 0.75
# The most bytes that a log and its notes have, where nothing else is said; and what a change takes beside its line.
MOST_LOG, BESIDE_LINE = 1000000000, 200
Clock = Callable[[], float]


class Ledger:
    """The log that is written, with what stands beside it.

    `entries` are the calls in it, `step` the last step, `made` the calls of each seat, and `since_edit` the deliveries
    since the last edit. `clock` has the times of edits, in seconds since 1970, and `even` goes on evenly, in seconds.
    From `most_log` bytes on nothing can be changed."""

    def __init__(self, log: Log, notes: Notes, network: Network, happening: Events, most_log: int = MOST_LOG,
                 clock: Clock = time.time, even: Clock = time.monotonic) -> None:
        self.log, self.notes, self.happening = log, notes, happening
        self.most_log, self.clock, self.even = most_log, clock, even
        self.seats, self.history = Seats(), History(network)
        self.made: "Counter[int]" = Counter()
        self.meters: Dict[int, Meter] = {}
        self.step = self.entries = self.since_edit = 0
        # When the last entries were written.
        self.at = 0.0
        self.is_noting = True

    # Seats

    def seat(self, name: str, digest: str = "") -> int:
        """The seat of a name, which is noted where it is new; with a digest it is entered by its token from now on.
        Mistake where none is left."""
        seat = self.seats.of(name)
        note: Dict[str, Any] = {"seat": seat}
        note.update({} if name in self.seats.numbers else {"name": name})
        note.update({"token": digest} if digest else {})
        if len(note) > 1:
            self.notes.add([note])
            self.seats.give(seat, name)
        if digest:
            self.seats.lock(seat, digest)
        return seat

    def free(self, seat: int) -> None:
        """The token of a seat is forgotten."""
        self.notes.add([{"seat": seat, "token": ""}])
        self.seats.lock(seat, "")

    def note_program(self, program: Provenance, before: List[Note]) -> None:
        """Notes by which program the log is written from here on, if that is another one than noted before."""
        made = program.as_json()
        note = {"program": made.pop("digest"), **made}
        last = [each for each in before if "program" in each][-1:]
        if last != [note]:
            self.notes.add([note])

    # What is written

    @property
    def size(self) -> int:
        """How many bytes the log has, with what stands beside it."""
        return self.log.size + self.notes.size

    def full(self, more: int = 0) -> str:
        """Why so many bytes of changes more are not written; empty where they are."""
        if self.size + more <= self.most_log:
            return ""
        told = ("the log has {:,} bytes of at most {:,}: nothing can be changed any more, "
                "and questions alone are answered")
        return told.format(self.size, self.most_log)

    def written(self, seat: int, now: Optional[float] = None) -> int:
        """How many bytes were written for a seat in the last minute, at a time by `even`; now where none is given."""
        meter = self.meters.get(seat)
        return 0 if meter is None else meter.total(self.even() if now is None else now)

    def keep(self, entries: List[Entry], by: Optional[int] = None, undoes: bool = False) -> List[Entry]:
        """Writes what is to stand in the log, and when it was: the entries. `by` is the seat that accepted them, and
        `undoes` says that they take another edit back. Raises Unkept where it cannot.

        Notes come first: those of entries that are not there are left out when the log is taken up."""
        kept = self._in_log(entries)
        # A clock may stand anywhere; what is noted has to be taken up again.
        now = self.at = min(max(0.0, self.clock()), LATEST)
        more = {name: value for name, value in (("by", by), ("undoes", undoes or None)) if value is not None}
        self.notes.add([{"entry": number, "at": now, **more} for number, entry in enumerate(kept, self.log.count + 1)
                        if entry.reply == ["ok"]])
        self.log.add(kept)
        self._measure(kept)
        return kept

    def _measure(self, entries: List[Entry]) -> None:
        now = self.even()
        for entry in entries:
            self.meters.setdefault(entry.seat, Meter()).add(now, entry.size)

    def _in_log(self, entries: List[Entry]) -> List[Entry]:
        """The calls that stand in the log: they spelled a command, and memory was there. Near the end of a log only
        changes do."""
        kept, lines, size = [], self.log.lines, self.size
        for entry in entries:
            if not entry.reply or refusal(entry.reply) in (SYNTAX, MEMORY):
                continue
            more = entry.size
            has_room = self.log.has_room(lines + entry.count + RESERVE) and \
                size + more <= QUESTIONS_PART * self.most_log
            if is_accepted(entry.reply) or has_room:
                kept.append(entry)
                lines += entry.count
                size += more
            elif self.is_noting:
                self.is_noting = False
                told = "the log has {:,} lines: from here on changes alone stand in it"
                self.happening.tell("told", told.format(lines))
        return kept

    # What is in it

    def take(self, entry: Entry, at: Optional[float] = None, by: Optional[int] = None, undoes: bool = False) -> bool:
        """An entry of the log, before the network has it; whether it is a change."""
        self.entries += 1
        self.made[entry.seat] += 1
        if not is_accepted(entry.reply):
            return False
        self.step += 1
        is_delivery = words_of(entry.line)[0] == "deliver"
        self.since_edit = self.since_edit + 1 if is_delivery else 0
        if not is_delivery:
            self.history.note(Edit(self.step, self.entries, entry.seat, entry.line, at, by), undoes)
        self._changed(entry.seat, entry.line, entry.reply[0])
        return True

    def note_name(self, line: str, seat: int) -> None:
        """Writes that a comment names a router, before anything has the name."""
        count = self.notes.add([{"router": line, "behind": self.entries, "by": seat}])
        self.meters.setdefault(seat, Meter()).add(self.even(), count)

    def name(self, line: str, seat: Optional[int]) -> None:
        """A comment that names a router: a step without an entry."""
        self.step += 1
        self._changed(seat, line, "")

    def note_back(self, seat: int) -> None:
        """The last edit of a seat, which changed nothing, is taken back without an entry."""
        self.notes.add([{"back": seat, "behind": self.entries}])
        self.history.take_back(seat)

    def _changed(self, seat: Optional[int], line: str, reply: str) -> None:
        who = None if seat is None else self.seats.name_of(seat)
        self.happening.changed({"step": self.step, "seat": seat, "who": who, "line": line, "reply": reply})

    def blame(self, router: str, most: Optional[int] = None) -> List[Dict[str, Any]]:
        """Who edited what about a router or virtual peer, and when: of more than `most` edits the last ones."""
        name_of, edits = self.seats.name_of, self.history.of(router)
        edits = edits if most is None else edits[max(0, len(edits) - most):]
        return [{"step": edit.step, "entry": edit.entry, "who": name_of(edit.seat), "at": edit.at, "line": edit.line,
                 "by": None if edit.by is None else name_of(edit.by)} for edit in edits]

    def close(self) -> None:
        """Lets the log be as it is, as a crash would: it can be taken up."""
        self.log.file.close()
        self.notes.close()
