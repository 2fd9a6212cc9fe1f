"""Expressions and patterns of configurations, held against text without trying many ways: what others wrote may be made
to take for ever."""
from __future__ import annotations

from typing import Iterable, List, Optional

MOST_DEPTH = 100
# What may stand before or behind a text, and takes nothing of it.
EDGES = "^$_"
# A letter behind one of these is no letter by itself.
REPEATED = "*+?"


class Unreadable(Exception):
    """An expression that is none, or is nested too deep."""


class _Expression:
    """An expression of POSIX as FRR has it, with `_` for a border between AS numbers: whether it finds the empty
    text."""

    def __init__(self, text: str) -> None:
        self.text, self.at = text, 0

    def whole(self) -> bool:
        """Raises Unreadable."""
        found = self._either(0)
        if self.at < len(self.text):
            raise Unreadable()
        return found

    def _next(self) -> str:
        return self.text[self.at:self.at + 1]

    def _either(self, depth: int) -> bool:
        """Alternatives: one of them finds it."""
        if depth > MOST_DEPTH:
            raise Unreadable()
        found = self._row(depth)
        while self._next() == "|":
            self.at += 1
            found = self._row(depth) or found
        return found

    def _row(self, depth: int) -> bool:
        """Parts one behind the other: each of them finds it."""
        found = True
        while self._next() not in ("", "|", ")"):
            part = self._part(depth)
            found = self._repeated(part) and found
        return found

    def _part(self, depth: int) -> bool:
        letter = self._next()
        self.at += 1
        if letter in REPEATED:
            raise Unreadable()
        if letter == "(":
            found = self._either(depth + 1)
            if self._next() != ")":
                raise Unreadable()
            self.at += 1
            return found
        if letter == "[":
            end = self.text.find("]", self.at + (2 if self.text.startswith("^", self.at) else 1))
            if end < 0:
                raise Unreadable()
            self.at = end + 1
        elif letter == "\\":
            self.at += 1
            if self.at > len(self.text):
                raise Unreadable()
        return letter in EDGES

    def _repeated(self, found: bool) -> bool:
        """What `*`, `+`, `?` and `{2,3}` behind a part make of it."""
        while self._next() and self._next() in REPEATED + "{":
            letter, self.at = self._next(), self.at + 1
            if letter == "{":
                end = self.text.find("}", self.at)
                least = self.text[self.at:end].split(",")[0].strip()
                if end < 0 or not (least.isascii() and least.isdigit()):
                    raise Unreadable()
                self.at = end + 1
                found = found or not least.strip("0")
            found = found or letter in "*?"
        return found


def finds_nothing(expression: str) -> Optional[bool]:
    """Whether an expression finds the empty text; nothing where it is none."""
    try:
        return _Expression(expression).whole()
    except Unreadable:
        return None


def is_like(text: str, pattern: str) -> bool:
    """Whether a text is of a pattern in which `*` is any letters, and `?` is one."""
    parts = pattern.split("*")
    if len(parts) == 1:
        return len(text) == len(pattern) and _stands(text, pattern, 0)
    if not _stands(text, parts[0], 0):
        return False
    at = len(parts[0])
    for part in parts[1:-1]:
        found = next((place for place in range(at, len(text) - len(part) + 1) if _stands(text, part, place)), None)
        if found is None:
            return False
        at = found + len(part)
    last = len(text) - len(parts[-1])
    return last >= at and _stands(text, parts[-1], last)


def _stands(text: str, part: str, at: int) -> bool:
    """Whether a part without `*` stands at a place of a text."""
    if "?" not in part:
        return text.startswith(part, at)
    return len(text) >= at + len(part) and all(one in ("?", other) for one, other in zip(part, text[at:]))


def names_like(names: Iterable[str], pattern: str) -> List[str]:
    """The names that are of a pattern."""
    return [name for name in names if is_like(name, pattern)]
