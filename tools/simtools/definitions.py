"""Reads files of definitions (specs/NAME.antt): the equations of each name, and what the imports call otherwise."""
from __future__ import annotations

import functools
import pathlib
import re
from typing import Dict, List, NamedTuple, Optional, Tuple

EQUATION = re.compile(r"(?P<name>[^\W\d][\w']*)(?P<patterns>(?:\s[^=]*?)?)\s=\s(?P<right>.*)")
IMPORT = re.compile(r"^(?:pub )?(?:ghost )?use [\w.]+\.\{([^}]*)\}", re.M)
TEXT = re.compile(r'codes "([^"]*)"')
OPENING, CLOSING = "([{", ")]}"


class Equation(NamedTuple):
    """One line of a definition: what stands between the name and `=`, and what behind that."""
    patterns: str
    right: str

    @property
    def names(self) -> List[str]:
        """The names in its patterns."""
        return re.findall(r"\w+", self.patterns)


class Definitions(NamedTuple):
    """A file: the equations of each name in their order, and the variants that imports call otherwise."""
    equations: Dict[str, List[Equation]]
    renamed: Dict[str, str]

    def of(self, name: str) -> List[Equation]:
        return self.equations.get(name, [])

    def right(self, name: str) -> str:
        """What the only equation of a name says; nothing where there is none."""
        return self.of(name)[0].right if self.of(name) else ""

    def for_variant(self, name: str, variant: str) -> Optional[str]:
        """What a definition by cases says of a variant, which has the name of its own crate."""
        return next((each.right for each in self.of(name) if variant in map(self.variant, each.names)), None)

    def variant(self, name: str) -> str:
        """A variant by the name that it has in its own crate."""
        return self.renamed.get(name, name)


def _lines(text: str) -> List[str]:
    """The lines of equations, each with those that go on with it; comments are left out."""
    found: List[str] = []
    for line in text.split("\n"):
        line = line.split(" -- ")[0].rstrip()
        if not line or line.startswith("--") or line.lstrip().startswith("-- "):
            continue
        if line[0] in " " + CLOSING and found:
            found[-1] += " " + line.strip()
        else:
            found.append(line)
    return found


def read(text: str) -> Definitions:
    """The definitions of a text."""
    equations: Dict[str, List[Equation]] = {}
    for line in _lines(text):
        found = EQUATION.fullmatch(line)
        if found and not line.startswith(("use ", "pub use ", "pub record ")):
            right = Equation(found.group("patterns").strip(), found.group("right").strip())
            equations.setdefault(found.group("name"), []).append(right)
    return Definitions(equations, _renamed(text))


def _renamed(text: str) -> Dict[str, str]:
    words = [each.split() for names in IMPORT.findall(text) for each in names.split(",")]
    return {each[2]: each[0] for each in words if each[1:2] == ["as"]}


@functools.lru_cache(maxsize=None)
def of_file(path: pathlib.Path) -> Definitions:
    """The definitions of a file."""
    return read(path.read_text(encoding="utf-8"))


def split(text: str, *signs: str) -> List[str]:
    """The parts of a text between these signs, where they stand in no brackets."""
    parts, depth, begun, at = [], 0, 0, 0
    while at < len(text):
        depth += (text[at] in OPENING) - (text[at] in CLOSING)
        sign = next((each for each in signs if depth == 0 and text.startswith(each, at)), "")
        if sign:
            parts.append(text[begun:at].strip())
            begun = at + len(sign)
        at += len(sign) or 1
    return parts + [text[begun:].strip()]


def tests(right: str) -> List[Tuple[str, str]]:
    """The tests in a list of pairs `(condition, Variant) ∷ ..`, in their order."""
    listed = right[right.index("(") + 1:right.rindex(")")] if right.startswith("first_of") else right
    pairs = [split(each[1:-1], ",") for each in split(listed, "∷") if each.startswith("(")]
    return [(pair[0], pair[1]) for pair in pairs if len(pair) == 2]


def texts(right: str) -> List[str]:
    """The texts that an equation writes."""
    return TEXT.findall(right)
