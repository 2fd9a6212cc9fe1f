"""A log that is taken up: what it has is done again, in its order, with the notes beside it.

When a share starts the program has to answer all calls as it did. After an error in the midst of a request it is the
log of the same run: then the program is given what was accepted when it is asked the next time."""
from __future__ import annotations

import math
from typing import Any, Callable, Dict, Iterable, Iterator, List

from ..program.language import readable
from ..program.line_count import is_accepted
from ..program.mistakes import Mistake
from .commands import Commands
from .ledger import Ledger
from .log import Entry, Reading
from .notes import Note, edit_of, entry_of
from .persistent_run import AT_ONCE

LAST = 1 << 62


def take_up(calling: Commands, notes: List[Note], tell: Callable[[str], None], is_checked: bool = True,
            known: float = math.inf) -> List[Entry]:
    """Takes up the log, from its whole entries, with these notes: the entries behind so many that are `known`. `tell`
    gets a word on what was cut off. Mistake where it is none or, if `is_checked`, is not what the program answers.
    OSError where it cannot be read."""
    ledger, new = calling.ledger, []  # type: Ledger, List[Entry]
    _take_seats(ledger, notes)
    made = {entry_of(note): note for note in notes if "entry" in note}
    between = [note for note in notes if "router" in note or "back" in note]
    # Where it is not known when a router was named, it has its name at the end, and from then on there.
    between.sort(key=lambda note: note.get("behind", LAST))
    between.reverse()
    _take_notes(calling, between, 0)
    with ledger.log.content() as file:
        reading = Reading(file, ledger.log.path)
        for part in _parts(reading.entries(), ledger, between):
            _replay(calling, part, made, is_checked)
            new += part[max(0, len(part) - ledger.entries + int(known)):] if ledger.entries > known else []
            _take_notes(calling, between, ledger.entries)
    if reading.cut:
        cut = "the last entry was cut off, and is left out: `%s`" % readable(reading.cut[:80])
        tell(str(Mistake(cut, ledger.log.path, reading.whole_lines + 1)))
    _take_notes(calling, between, LAST)
    ledger.log.begin(reading)
    ledger.notes.begin(_lasting(notes, reading.count))
    return new


def _take_seats(ledger: Ledger, notes: List[Note]) -> None:
    seats = ledger.seats
    for note in notes:
        if "name" in note:
            try:
                seats.give(note["seat"], note["name"])
            except Mistake as fault:
                raise Mistake(str(fault), ledger.notes.path) from None
        if "token" in note:
            seats.lock(note["seat"], note["token"])


def _parts(entries: Iterable[Entry], ledger: Ledger, between: List[Note]) -> Iterator[List[Entry]]:
    """The entries, some at a time: a part ends where a note stands between two entries."""
    part: List[Entry] = []
    for entry in entries:
        if part and (len(part) == AT_ONCE or between and between[-1].get("behind", LAST) <= ledger.entries + len(part)):
            yield part
            part = []
        part.append(entry)
    if part:
        yield part


def _replay(calling: Commands, entries: List[Entry], made: Dict[int, Note], is_checked: bool) -> None:
    """Takes entries of a log. Mistake where the program answers otherwise."""
    ledger, program = calling.ledger, calling.program.run.program
    if is_checked:
        replies = program.say_all(entry.line for entry in entries)
        for entry, reply in zip(entries, replies):
            if reply != entry.reply:
                differs = "`%s`: the program answers `%s`, and the log has `%s`"
                raise Mistake(differs % (entry.line, reply[0], entry.reply[0]), ledger.log.path, entry.number)
    else:
        program.accepted += [entry.line for entry in entries if is_accepted(entry.reply)]
    for entry in entries:
        ledger.seats.taken(entry.seat)
        calling.take(entry, *edit_of(made.get(ledger.entries + 1, {})))


def _take_notes(calling: Commands, between: List[Note], entries: int) -> None:
    """Takes the notes that stand behind so many entries, or fewer."""
    while between and between[-1].get("behind", LAST) <= entries:
        note = between.pop()
        note["behind"] = min(note.get("behind", LAST), calling.ledger.entries)
        if "router" in note:
            calling.name(note["router"], note.get("by"), is_noted=True)
        else:
            calling.ledger.history.take_back(note["back"])


def _lasting(notes: List[Note], count: int) -> List[Note]:
    """The notes that still count, where the log has so many entries: of the tokens of a seat the last one does."""
    last = {note["seat"]: note["token"] for note in notes if "token" in note}
    kept: List[Note] = []
    for note in notes:
        if "name" in note:
            token = last.pop(note["seat"], "")
            kept.append({**{name: note[name] for name in ("seat", "name")}, **({"token": token} if token else {})})
        elif "seat" not in note and entry_of(note) <= count:
            kept.append(note)
    return kept + [{"seat": seat, "token": token} for seat, token in last.items() if token]


def parts(items: Iterable[Any]) -> Iterator[List[Any]]:
    """The items, some at a time."""
    part: List[Any] = []
    for item in items:
        part.append(item)
        if len(part) == AT_ONCE:
            yield part
            part = []
    if part:
        yield part
