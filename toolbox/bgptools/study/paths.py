"""Paths inside of a study: relative, of plain names, so that none leaves its folder."""
from __future__ import annotations

import re

from ..program.language import escaped
from ..program.mistakes import Mistake

# A name in a path; none begins with a dot or a hyphen.
NAME = re.compile("[A-Za-z0-9_][A-Za-z0-9_.+-]{0,99}")
DEEPEST = 8


def is_plain(path: str) -> bool:
    """Whether a path has plain names alone, and few of them."""
    names = path.split("/")
    return len(names) <= DEEPEST and all(map(NAME.fullmatch, names))


def check(path: str, where: str) -> None:
    """Mistake, with where it stands, for a path that is none of a study."""
    if not is_plain(path):
        raise Mistake("%s: `%s` is no path inside of the study: names of letters, digits, `_`, `.`, `+` and `-` are "
                      "expected, as changes/lost-link.change" % (where, escaped(path[:80])))
