"""A script as a file has it: its lines, with their file and number."""
from __future__ import annotations

import re
import sys
from dataclasses import dataclass
from typing import List, Optional

from .language import ended, is_silent, words_of
from .mistakes import Mistake
from .process import LONGEST_READ

# A command that is meant to be refused has this comment in the line before it, or behind it.
MARK = re.compile(r" *# *expect refused(?: +([0-9]+))? *")


@dataclass(frozen=True)
class Line:
    """A line of a script. `expected` is nothing, or the refusal that is marked: 0 where any will do."""
    file: str
    number: int
    text: str
    expected: Optional[int] = None

    @property
    def words(self) -> List[str]:
        return words_of(self.text)

    @property
    def is_command(self) -> bool:
        return not is_silent(self.text)


def read(path: str) -> List[Line]:
    """The lines of a script, or of standard input for `-`."""
    name = "standard input" if path == "-" else path
    try:
        if path == "-":
            content = sys.stdin.buffer.read()
        else:
            with open(path, "rb") as file:
                content = file.read()
    except (OSError, ValueError) as error:
        raise Mistake("it cannot be read: %s" % (getattr(error, "strerror", None) or error), name) from None
    return lines_of(content, name)


def lines_of(content: bytes, name: str) -> List[Line]:
    """A script's bytes as lines: a carriage return before a line feed belongs to the end of the line."""
    texts = content.decode("latin-1").split("\n")
    ended = [text[:-1] if text.endswith("\r") else text for text in texts[:-1]] + texts[-1:]
    if ended[-1] == "":
        ended.pop()
    lines, marked = [], None
    for number, text in enumerate(ended, 1):
        if len(text) > LONGEST_READ:
            raise Mistake("a line of %d bytes; the program reads at most %d" % (len(text), LONGEST_READ), name, number)
        line, marked = _marked(Line(name, number, text), marked)
        lines.append(line)
    return lines


def _marked(line: Line, before: Optional[int]) -> "tuple[Line, Optional[int]]":
    """The line with its mark, if it or the line before it has one; and the mark that it makes for the next."""
    if not line.is_command:
        own = MARK.fullmatch(line.text)
        return line, int(own.group(1) or 0) if own else before if not line.words else None
    behind = MARK.search(line.text)
    if behind and behind.end() == len(line.text):
        return Line(line.file, line.number, line.text[:behind.start()], int(behind.group(1) or 0)), None
    return Line(line.file, line.number, line.text, before), None


def content_of(lines: List[str]) -> bytes:
    """Lines as the bytes of a script."""
    return "".join(map(ended, lines)).encode("latin-1")
