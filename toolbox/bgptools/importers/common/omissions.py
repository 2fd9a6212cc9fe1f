"""What an importer does not take over: told with file and line, or counted where it decides no route."""
from __future__ import annotations

import sys
from collections import Counter
from typing import List, NamedTuple, Optional, Set, Tuple

from ...program import output
from ...program.language import escaped
from ...program.line_count import check_length
from ...program.mistakes import CHANGED, WRONG
from .configuration import Told


class Place(NamedTuple):
    """A line of a file; 0 is the file as a whole."""
    file: str
    line: int


class LeftOut:
    """What is told, each thing once, and what is counted."""

    def __init__(self) -> None:
        self.told: List[Told] = []
        self.counts: "Counter[str]" = Counter()
        self.counted: Set[Tuple[str, Place]] = set()

    def tell(self, at: Place, text: str) -> None:
        """Tells what is not taken over and may decide a route, with what comes of it."""
        self._take(Told(at.file, at.line, escaped(text), True))

    def note(self, at: Place, text: str) -> None:
        """Tells what is taken over and may surprise."""
        self._take(Told(at.file, at.line, escaped(text), False))

    def count(self, kind: str, at: Place) -> None:
        """Counts what decides no route, once for a place."""
        self.counts[kind] += (kind, at) not in self.counted
        self.counted.add((kind, at))

    def _take(self, each: Told) -> None:
        if each not in self.told:
            self.told.append(each)

    def _print(self, what: str) -> None:
        """By file and line; `what` are the things that are counted, in the plural."""
        for each in sorted(self.told, key=lambda each: (each.file, each.line)):
            place = "%s:%d" % (each.file, each.line) if each.line else each.file
            print("%s: %s: %s" % (place, "not taken over" if each.decides else "note", each.text), file=sys.stderr)
        if self.counts:
            ordered = sorted(self.counts.items(), key=lambda each: (-each[1], each[0].lower()))
            print("%d %s that decide no route were left out: %s" % (
                sum(self.counts.values()), what, ", ".join("%s %d" % each for each in ordered)), file=sys.stderr)

    def write(self, lines: List[str], file: str, out: Optional[str], is_strict: bool, what: str = "lines") -> int:
        """Tells all that was left out, writes the script but where `--strict` forbids it, and gives the exit status."""
        self._print(what)
        decides = any(each.decides for each in self.told)
        if is_strict and decides:
            print("nothing is written, since --strict treats each reported line as an error", file=sys.stderr)
            return WRONG
        check_length(len(lines), file)
        output.write("".join(line + "\n" for line in lines), out)
        return CHANGED if decides else 0
