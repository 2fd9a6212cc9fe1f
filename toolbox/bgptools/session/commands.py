"""Calls on a shared network: lines of people, given to the program, kept in the log, and answered."""
from __future__ import annotations

import contextlib
import re
from dataclasses import dataclass
from typing import Iterable, List, Optional, Tuple

from ..convergence.transcript import kept_back
from ..network.refusals import sentence
from ..program.language import LONGEST, QUESTIONS, escaped, is_silent, words_of
from ..program.mistakes import Mistake
from ..program.names import MARK, Names
from ..program.process import one_line
from ..program.replies import refusal
from .ledger import BESIDE_LINE, Ledger
from .log import Entry
from .persistent_run import AT_ONCE, PersistentRun, Lost


# All but a tab, which the program refuses with a word on it.
CONTROL = re.compile("[\x00-\x08\x0a-\x1f\x7f]")


@dataclass
class Answer:
    """What a line is answered: the reply, what is told beside it, and the step after it. With `error` it was not done
    at all."""
    reply: List[str]
    told: List[str]
    step: int
    error: str = ""

    def fault(self, expected: Optional[int]) -> str:
        """Why a line that is marked so was not done; empty where it was, or was to be refused."""
        number = refusal(self.reply)
        if not self.error and number and expected not in (0, number):
            return "%s: %s" % (self.reply[0], self.told[0][len("-- "):])
        return self.error


class Commands:
    """Makes calls. Whatever is answered stands in the log."""

    def __init__(self, program: PersistentRun, ledger: Ledger) -> None:
        self.program, self.ledger = program, ledger

    def calls(self, given: Iterable[Tuple[int, str]]) -> List[Answer]:
        """The answer to each line, given with its seat, in order. Their entries are in the log when it returns.

        Raises Unkept where the log cannot be written: what was made then stands in no log, and has no answer."""
        answers: List[Answer] = []
        part: List[Tuple[int, str]] = []
        for seat, line in given:
            part.append((seat, line))
            # What is told beside a reply may ask the program, and a name has its place among the lines.
            if len(part) == AT_ONCE or words_of(line)[:1] == ["out"] or MARK.fullmatch(line):
                answers += self._calls(part)
                part = []
        return answers + self._calls(part)

    def call(self, seat: int, line: str, by: Optional[int] = None, undoes: bool = False) -> Answer:
        """The answer to a line that another seat accepted, or that takes an edit back."""
        return self._calls([(seat, line)], by, undoes)[0]

    def take(self, entry: Entry, at: Optional[float] = None, by: Optional[int] = None, undoes: bool = False) -> None:
        """An entry of the log."""
        if self.ledger.take(entry, at, by, undoes):
            self.program.take(entry)

    def name(self, line: str, seat: Optional[int], is_noted: bool = False) -> None:
        """A comment, which may name a router. It is noted, if it is not already."""
        if not Names().take(line):
            return
        if seat is not None and not is_noted:
            self.ledger.note_name(line, seat)
        self.program.name(line)
        self.ledger.name(line, seat)

    def fault(self, line: str, more: int = 0) -> str:
        """Why a line is not given to the program; empty where it is. So many bytes more are to be written before."""
        try:
            check_line(line)
        except Mistake as mistake:
            return mistake.text
        if not _is_change(line):
            return ""
        if self.program.is_full:
            told = "{:,} lines have been made; one network holds no more, and questions alone are answered"
            return told.format(len(self.program.lines))
        return self.ledger.full(more + _size(line))

    def _faults(self, lines: List[str]) -> List[str]:
        """Why each line is not given to the program: together they may be more than the log takes."""
        faults, more = [], 0
        for line in lines:
            faults.append(self.fault(line, more))
            more += 0 if faults[-1] or not _is_change(line) else _size(line)
        return faults

    def _calls(self, given: List[Tuple[int, str]], by: Optional[int] = None, undoes: bool = False) -> List[Answer]:
        if not given:
            return []
        lines = [_normal(line) for _, line in given]
        errors = self._faults(lines)
        asked = [line for line, error in zip(lines, errors) if not error and not is_silent(line)]
        try:
            replies = iter(self.program.asked(asked))
        except Lost as lost:
            return [Answer([], [], self.ledger.step, str(lost)) for _ in given]
        entries = [Entry(seat, line, [] if error or is_silent(line) else next(replies))
                   for (seat, _), line, error in zip(given, lines, errors)]
        kept = set(map(id, self.ledger.keep(entries, by, undoes)))
        answers = []
        for entry, error in zip(entries, errors):
            told = [] if error else self._told(entry)
            if id(entry) in kept:
                self.take(entry, self.ledger.at, by, undoes)
            elif not error and not entry.reply:
                self.name(entry.line, entry.seat)
            answers.append(Answer(entry.reply, told, self.ledger.step, error))
        return answers

    def _told(self, entry: Entry) -> List[str]:
        """What is told beside a reply. The network is as it was before the line."""
        number = refusal(entry.reply)
        if number:
            return ["-- " + sentence(entry.line, number, self.program.network)]
        with contextlib.suppress(Lost), self.program.renewing():
            return kept_back(self.program.run, words_of(entry.line), entry.reply)
        return []


def check_line(line: str) -> str:
    """The line, if a script can have it. Mistake where it cannot: a line end or another control character is in it, it
    is too long, or has characters that are no bytes."""
    one_line(line)
    odd = CONTROL.search(line)
    if odd:
        told = "a line has no control characters, and this has %s: `%s`"
        raise Mistake(told % (ascii(odd.group()), escaped(line[:80])))
    return line


def _is_change(line: str) -> bool:
    """Whether a line may change something, as a comment does that names a router."""
    return bool(MARK.fullmatch(line)) if is_silent(line) else QUESTIONS.isdisjoint(words_of(line)[:1])


def _size(line: str) -> int:
    """At least so many bytes as a change takes in the log and beside it."""
    # A comment stands in the notes, where a byte may take six.
    return BESIDE_LINE + len(line) * (6 if is_silent(line) else 1)


def _normal(line: str) -> str:
    """A command as it stands in a log, with one space between its words; any other line as it is."""
    return line if len(line) > LONGEST or is_silent(line) else " ".join(words_of(line))
