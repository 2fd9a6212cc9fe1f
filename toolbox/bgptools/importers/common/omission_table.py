"""What an importer does not take over: lines that decide no route, by what they are counted as, and others, by what
comes of leaving them out. Each importer adds the lines of its own files."""
from __future__ import annotations

import re
from typing import Dict, List, Optional, Pattern, Tuple

Table = List[Tuple[Pattern[str], str]]


def table(*rows: Tuple[str, str]) -> Table:
    """Patterns, each of which stands at the start of a line, and what is said of such a line."""
    return [(re.compile("(?:%s)(?: |$)" % pattern), said) for pattern, said in rows]


# By the kind of a line. Those that decide no route: what they are counted as.
COUNTED: Dict[str, Table] = {}
# Those that may decide one: what comes of leaving them out.
TOLD: Dict[str, Table] = {}


def category(kind: str, text: str) -> Optional[str]:
    """What a line that decides no route is counted as; nothing where it may decide one, or is not known."""
    return next((said for pattern, said in COUNTED.get(kind, []) if pattern.match(text)), None)


def consequence(kind: str, text: str) -> Optional[str]:
    """What comes of leaving a line out; nothing where it is not known."""
    return next((said for pattern, said in TOLD.get(kind, []) if pattern.match(text)), None)
