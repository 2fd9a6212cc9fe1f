"""What is left out of a table: routes that might decide another one, and what decides none."""
from __future__ import annotations

import re
import sys
from collections import Counter
from typing import Dict

# So many routes of a kind are told by themselves.
SHOWN = 10
NUMBERS = re.compile("[0-9]+")


class Omissions:
    """What is told on standard error. `count` is how many routes that might decide another are left out."""

    def __init__(self) -> None:
        self.count = self.six = 0
        self.kinds: "Counter[str]" = Counter()
        self.counted: "Dict[str, Counter[str]]" = {}
        # The first of each kind of thing, with what is said of it, and how many there are.
        self.first: Dict[str, str] = {}
        self.more: "Counter[str]" = Counter()

    def leave_out(self, place: object, why: str) -> None:
        """A route is left out, which might decide another. The first of a kind are told at once."""
        self.count += 1
        kind = NUMBERS.sub("N", why)
        self.kinds[kind] += 1
        if self.kinds[kind] <= SHOWN:
            print("%s: not taken over: %s" % (place, why), file=sys.stderr)

    def add(self, kind: str, place: object, said: str, count: int = 1) -> None:
        """One more of a kind, of which the first one is told at the end: `said`, with its place."""
        self.more[kind] += count
        if kind not in self.first:
            self.first[kind] = "%s: %s" % (place, said)

    def note(self, heading: str, name: str, count: int = 1) -> None:
        """One more of what decides no route, under a heading."""
        self.counted.setdefault(heading, Counter())[name] += count

    def note_six(self, count: int) -> None:
        """So many routes of IPv6, which decide none of IPv4."""
        self.six += count

    def tell(self, path: str) -> None:
        """Tells what is not told yet."""
        for kind, count in self.kinds.items():
            if count > SHOWN:
                print("%s: not taken over: %d more routes: %s" % (path, count - SHOWN, kind), file=sys.stderr)
        if self.six:
            print("%s: %d routes of IPv6 were left out" % (path, self.six), file=sys.stderr)
        for kind, said in self.first.items():
            print("%s; %s: %d" % (said, kind, self.more[kind]), file=sys.stderr)
        for heading, counts in self.counted.items():
            print("%s: %s: %s" % (path, heading, ", ".join("%s %d" % each for each in sorted(
                counts.items(), key=lambda each: (-each[1], each[0])))), file=sys.stderr)
