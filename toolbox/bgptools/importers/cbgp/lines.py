"""The lines of C-BGP scripts: words, quotes and comments, with the scripts that they include."""
from __future__ import annotations

import os
from dataclasses import dataclass
from typing import Iterator, List, Tuple

from ...program.line_count import MOST_LINES
from ...program.mistakes import Mistake
from ..common.omissions import Place
from ..common.sources import MOST_UNPACKED, lines_in, named

MOST_SHOWN = 100
# Scripts include scripts up to this depth.
MOST_DEPTH = 50


@dataclass(frozen=True)
class Line:
    """A line with its words, quotes taken off."""
    file: str
    number: int
    words: Tuple[str, ...]

    @property
    def place(self) -> Place:
        return Place(self.file, self.number)

    @property
    def text(self) -> str:
        """The line as it is shown, with one space between words."""
        text = " ".join('"%s"' % word if " " in word or not word else word for word in self.words)
        return text if len(text) <= MOST_SHOWN else text[:MOST_SHOWN] + ".."

    def mistake(self, text: str) -> Mistake:
        """What is wrong with it."""
        return Mistake("%s: %s" % (self.text, text), self.file, self.number)


def words_of(text: str) -> List[str]:
    """The words of a line up to a comment. What is in quotes is one word, in which `\\"` is a quote; raises ValueError
    where a quote is not closed."""
    if '"' not in text and "#" not in text:
        return [word for word in text.replace("\t", " ").split(" ") if word]
    words: List[str] = []
    at = 0
    while at < len(text):
        if text[at] in " \t":
            at += 1
        elif text[at] == "#":
            break
        else:
            word, at = _word(text, at)
            words.append(word)
    return words


def _word(text: str, at: int) -> Tuple[str, int]:
    """The word that begins there, and where it ends."""
    found: List[str] = []
    is_quoted = False
    while at < len(text) and (is_quoted or text[at] not in " \t"):
        if text.startswith('\\"', at) and is_quoted:
            found.append('"')
            at += 1
        elif text[at] == '"':
            is_quoted = not is_quoted
        else:
            found.append(text[at])
        at += 1
    if is_quoted:
        raise ValueError("a quote is not closed")
    return "".join(found), at


class Scripts:
    """The lines of several scripts one after another, with those that they include in their places; of each packed one
    so many bytes at most."""

    def __init__(self, most: int = MOST_UNPACKED) -> None:
        self.count, self.most = 0, most

    def lines(self, path: str, around: Tuple[str, ...] = ()) -> Iterator[Line]:
        """The lines of a script that have a word."""
        for number, text in lines_in(path, self.most, bool(around)):
            self.count += 1
            if self.count > MOST_LINES:
                raise Mistake("more than {:,} lines are read".format(MOST_LINES), named(path), number)
            line = _line(named(path), number, text)
            if line.words[:1] == ("include",):
                yield from self._included(line, around + (os.path.realpath(path),))
            elif line.words:
                yield line

    def _included(self, line: Line, around: Tuple[str, ...]) -> Iterator[Line]:
        if len(line.words) != 2:
            raise line.mistake("`include FILE` is expected")
        path = line.words[1]
        beside = os.path.join(os.path.dirname(line.file), path)
        chosen = beside if os.path.exists(beside) else path
        if "\0" in path or not os.path.exists(chosen):
            raise line.mistake("there is no such file")
        if os.path.realpath(chosen) in around:
            raise line.mistake("it is read already, and would be without end")
        if len(around) > MOST_DEPTH:
            raise line.mistake("scripts include each other more than %d deep" % MOST_DEPTH)
        if not os.path.isfile(chosen):
            raise line.mistake("it is no regular file")
        yield from self.lines(chosen, around)


def _line(file: str, number: int, text: str) -> Line:
    try:
        return Line(file, number, tuple(words_of(text)))
    except ValueError as error:
        raise Mistake("%s" % error, file, number) from None
