"""Names of routers. A comment `# name 10.0.4.1 y1` of a script gives one; the tools show it, and take it where they take an address."""
from __future__ import annotations

import re
from typing import Dict, List

from .language import ADDRESSES, address, readable
from .language_table import FORMS
from .mistakes import Mistake

# So many bytes a name may have that a tool gives.
MOST_BYTES = 255
MARK = re.compile(r" *# *name +([0-9.]+) +([^ ]+) *")
ADDRESS = re.compile(r"(?<![0-9./])[0-9]+(?:\.[0-9]+){3}(?![0-9/]|\.[0-9])")


class Names:
    """The names that a script gives, by address."""

    def __init__(self) -> None:
        self.of: Dict[str, str] = {}

    def take(self, line: str) -> bool:
        """Notes the name that a line gives; whether it gives one. The last one of an address counts."""
        found = MARK.fullmatch(line)
        if found is None or address(found.group(1)) is None:
            return False
        self.of[found.group(1)] = readable(found.group(2))
        return True

    def shown(self, where: str) -> str:
        """An address as a reader sees it: `y1 (10.0.4.1)`, or as it is where it has no name."""
        return "%s (%s)" % (self.of[where], where) if where in self.of else where

    def in_text(self, text: str) -> str:
        """Text with its addresses as a reader sees them, but those of a command between backquotes."""
        if not self.of:
            return text
        parts = text.split("`")
        parts[::2] = [ADDRESS.sub(lambda found: self.shown(found.group()), part) for part in parts[::2]]
        return "`".join(parts)

    def address_of(self, word: str) -> str:
        """The address that a word names; any other word as it is. An address is never taken for a name."""
        if address(word) is not None:
            return word
        found: List[str] = [where for where, name in self.of.items() if name == word]
        if len(found) > 1:
            raise Mistake("the name %s is that of %s; give the address" % (word, " and of ".join(found)))
        return found[0] if found else word

    def in_line(self, line: str) -> str:
        """A command with an address in the place of each name that stands where one is wanted."""
        if not self.of:
            return line
        parts = line.split(" ")
        places = [at for at, part in enumerate(parts) if part]
        words = [parts[at] for at in places]
        forms = [form.words for form in FORMS if words[:1] == form.words[:1]]
        for at, *wants in zip(places, *forms):
            if set(wants) & set(ADDRESSES):
                found = self.address_of(readable(parts[at]))
                parts[at] = parts[at] if address(found) is None else found
        return " ".join(parts)


# What is told of a name that is left out.
TOO_LONG = "the name %s.. is too long, and is left out"


def fits(name: str) -> bool:
    """Whether a line has room for a name, beside an address."""
    return len(name.encode("utf-8", "surrogateescape")) <= MOST_BYTES


def mark(where: str, name: str) -> str:
    """The comment that gives a name."""
    return "# name %s %s" % (where, name)
