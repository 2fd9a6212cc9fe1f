"""A network by its prefixes: the same script with some of them each. Prefixes do not meet in the decision."""
from __future__ import annotations

from typing import Dict, Iterable, List, Set

from ..program.language import PREFIX_PLACES, QUESTIONS, by_prefix, contains, prefix
from ..program.mistakes import Mistake
from ..program.script import Line

# Where an edit or a feed names the prefix that it tells of.
PLACES = {name: place for name, place in PREFIX_PLACES.items() if name not in QUESTIONS}


def prefix_of(line: Line) -> str:
    """The prefix that a line originates or feeds; empty where it does neither."""
    words = line.words if line.is_command else []
    place = PLACES.get(words[0], 0) if words else 0
    return words[place] if place and len(words) > place else ""


def groups(prefixes: Iterable[str], count: int, has_inner_together: bool) -> List[Set[str]]:
    """Prefixes in groups of so many; those that contain one another in one, where packets are to be followed. What is
    no prefix is in a group, too: its line is refused there."""
    found: List[Set[str]] = [set()]
    outer = None
    for each in sorted(set(prefixes), key=lambda each: (by_prefix(each), each)):
        value = prefix(each)
        is_inner = bool(has_inner_together and outer and value and contains(outer, value))
        outer = outer if is_inner else value
        if len(found[-1]) >= count and not is_inner:
            found.append(set())
        found[-1].add(each)
    return found


class Parts:
    """Scripts by the groups of their prefixes. Mistake where the first has deliveries of its own."""

    def __init__(self, lines: List[Line], changes: Iterable[Line], count: int, has_inner_together: bool) -> None:
        if count < 1:
            raise Mistake("--by-prefix %d: a number of at least 1 is expected" % count)
        for line in (line for line in lines if line.is_command and line.words[0] == "deliver"):
            raise Mistake("`%s`: in a script with deliveries of its own the messages of different prefixes meet in a "
                          "queue; --by-prefix wants one without" % line.text.strip(" "), line.file, line.number)
        named = {prefix_of(line) for line in [*lines, *changes]} - {""}
        found = groups(named, count, has_inner_together)
        self.count = len(found)
        self.places: Dict[str, int] = {to: at for at, group in enumerate(found) for to in group}

    def of(self, lines: Iterable[Line]) -> List[List[Line]]:
        """The script once for each group, with the lines that tell of its prefixes, and all that tell of none."""
        parts: List[List[Line]] = [[] for _ in range(self.count)]
        for line in lines:
            to = prefix_of(line)
            for part in ([parts[self.places[to]]] if to else parts):
                part.append(line)
        return parts
