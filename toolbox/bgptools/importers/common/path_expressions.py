"""Expressions of POSIX about paths, as FRR has them, held against paths of which an AS may stand more often: in time that
grows with the text, by all states at once (K. Thompson, Regular Expression Search Algorithm, 1968)."""
from __future__ import annotations

from typing import Collection, FrozenSet, List, NamedTuple, Optional, Sequence, Set, Tuple

from .expressions import MOST_DEPTH, Unreadable

MOST_STEPS = 500
# A router puts itself in front once, and 16 times more by a rule.
MOST_REPEATS = 17
BORDERS = frozenset(" ,{}()")


class _Step(NamedTuple):
    """A step of the program: a letter of a set (`set`, `but`), two ways on (`split`), a border of the text (`begin`,
    `end`), or `match`."""
    what: str
    letters: FrozenSet[str] = frozenset()
    ways: Tuple[int, ...] = ()


class State(NamedTuple):
    """Where the search is: the steps that it stands at, and whether it has found something already."""
    at: FrozenSet[int]
    has_found: bool


class Expression:
    """An expression as a program; raises Unreadable."""

    def __init__(self, text: str) -> None:
        self.text, self.at = text, 0
        self.steps = self._either(0)
        if self.at < len(text):
            raise Unreadable()
        self.steps.append(_Step("match"))

    # Reading: each gives steps whose ways are relative to their own place

    def _next(self) -> str:
        return self.text[self.at:self.at + 1]

    def _either(self, depth: int) -> List[_Step]:
        if depth > MOST_DEPTH:
            raise Unreadable()
        found = self._row(depth)
        while self._next() == "|":
            self.at += 1
            found = _either(found, self._row(depth))
        return found

    def _row(self, depth: int) -> List[_Step]:
        found: List[_Step] = []
        while self._next() not in ("", "|", ")"):
            found += self._repeated(self._part(depth))
            if len(found) > MOST_STEPS:
                raise Unreadable()
        return found

    def _part(self, depth: int) -> List[_Step]:
        letter = self._next()
        self.at += 1
        if letter in "*+?{":
            raise Unreadable()
        if letter == "(":
            found = self._either(depth + 1)
            if self._next() != ")":
                raise Unreadable()
            self.at += 1
            return found
        if letter == "[":
            return [self._set()]
        if letter == "\\":
            letter = self._next()
            self.at += 1
            # A group that is to come again is not followed.
            if not letter or letter.isalnum():
                raise Unreadable()
            return [_Step("set", frozenset(letter))]
        if letter == "_":
            return _either(_either([_Step("begin")], [_Step("end")]), [_Step("set", BORDERS)])
        return [{"^": _Step("begin"), "$": _Step("end"), ".": _Step("but")}.get(letter, _Step("set", frozenset(letter)))]

    def _set(self) -> _Step:
        is_not = self.text.startswith("^", self.at)
        self.at += is_not
        end = self.text.find("]", self.at + 1)
        inside = self.text[self.at:end]
        if end < 0 or "[" in inside:
            raise Unreadable()
        self.at, found, place = end + 1, set(), 0
        while place < len(inside):
            if inside[place + 1:place + 2] == "-" and place + 2 < len(inside):
                found |= {chr(each) for each in range(ord(inside[place]), min(ord(inside[place + 2]), 127) + 1)}
                place += 3
            else:
                found.add(inside[place])
                place += 1
        return _Step("but" if is_not else "set", frozenset(found))

    def _repeated(self, part: List[_Step]) -> List[_Step]:
        while self._next() and self._next() in "*+?{":
            letter, self.at = self._next(), self.at + 1
            if letter == "{":
                part = self._counted(part)
            else:
                again = _either(part + [_Step("split", ways=(-len(part) - 1,))], []) if letter != "?" else part
                part = part + again if letter == "+" else again if letter == "*" else _either(part, [])
            if len(part) > MOST_STEPS:
                raise Unreadable()
        return part

    def _counted(self, part: List[_Step]) -> List[_Step]:
        end = self.text.find("}", self.at)
        least, comma, most = self.text[self.at:end].partition(",")
        if end < 0 or not all(each.isdigit() and len(each) < 4 for each in (least, most or least)):
            raise Unreadable()
        self.at = end + 1
        least_of, most_of = int(least), int(most or least)
        if comma and not most or most_of < least_of or (most_of + 1) * (len(part) + 1) > MOST_STEPS:
            raise Unreadable()
        return part * least_of + _either(part, []) * (most_of - least_of)

    # Searching

    def begin(self) -> State:
        """Before the first letter."""
        return self._state({0}, True)

    def _state(self, places: Set[int], is_begin: bool) -> State:
        found = self._closed(places, is_begin, False)
        return State(frozenset(found), any(self.steps[each].what == "match" for each in found))

    def _closed(self, places: Collection[int], is_begin: bool, is_end: bool) -> Set[int]:
        """The steps that are reached from some without a letter."""
        found, waiting = set(places), list(places)
        while waiting:
            place = waiting.pop()
            step = self.steps[place]
            goes = is_begin if step.what == "begin" else step.what == "end" and is_end
            for way in [place + each for each in step.ways] if step.what == "split" else [place + 1] * goes:
                if way not in found:
                    found.add(way)
                    waiting.append(way)
        return found

    def behind(self, state: State, text: str) -> State:
        """The state behind a text."""
        for letter in text:
            if state.has_found:
                return state
            on = {place + 1 for place in state.at if self.steps[place].what == "set" and letter in
                  self.steps[place].letters or self.steps[place].what == "but" and letter not in
                  self.steps[place].letters}
            state = self._state(on | {0}, False)
        return state

    def finds(self, state: State, is_empty: bool) -> bool:
        """Whether it finds something in a text that ends here. `is_empty`: the text has no letter."""
        return state.has_found or any(self.steps[each].what == "match" for each in
                                      self._closed(state.at, is_empty, True))

    def finds_path(self, path: Sequence[int], repeating: Collection[int]) -> Optional[bool]:
        """Whether it finds something in the text of a path; nothing where that hangs on how often an AS stands there
        that puts itself in more than once."""
        states = {self.begin()}
        for place, asn in enumerate(path):
            behind: Set[State] = set()
            for state in states:
                for again in range(MOST_REPEATS if asn in repeating else 1):
                    state = self.behind(state, (" " if place or again else "") + str(asn))
                    behind.add(state)
            states = behind
        found = {self.finds(state, not path) for state in states}
        return found.pop() if len(found) == 1 else None


def _either(one: List[_Step], other: List[_Step]) -> List[_Step]:
    """One or the other."""
    return [_Step("split", ways=(1, len(one) + 2)), *one, _Step("split", ways=(len(other) + 1,)), *other]
