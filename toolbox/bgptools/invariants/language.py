"""The lines of an invariants file. Each is one of `FORMS`; what follows a `#` is a comment."""
from __future__ import annotations

import re
from dataclasses import dataclass, field
from typing import Dict, List, Optional, Tuple

from ..network.configuration import Network
from ..program.language import number, prefix, readable
from ..program.mistakes import Mistake
from ..program.script import Line, read
from .roles import Roles

ROUTER, PREFIX, AS = "ROUTER", "PREFIX", "AS"
ROLES = ("customer", "provider", "peer")
FORMS = tuple((spelling.split(" ")[at], spelling.split(" ")) for at, spelling in (
    (1, "ROUTER|PREFIX reaches PREFIX"), (1, "ROUTER avoids AS|ROUTER for PREFIX"),
    (1, "ROUTER prefers AS over AS for PREFIX"), (1, "no route of AS to AS"), (0, "isolation of PREFIX from AS"),
    *((0, role + " AS") for role in ROLES), *((0, role + " AS of AS") for role in ROLES)))
# Two ways to write an AS: `AS7` and `AS 7`.
NUMBER = re.compile(r"AS([0-9]+)")
PARTED = re.compile(r"(?<!\S)AS\s+(?=[0-9]+(?:\s|$))")
EXPECTED = {ROUTER: "a router, by its name or address", PREFIX: "a prefix, as 10.0.0.0/8", AS: "an AS, as AS7"}


@dataclass(frozen=True)
class Invariant:
    """A line of the file, with the values of its form: addresses of routers, prefixes and AS numbers, in order."""
    file: str
    number: int
    text: str
    kind: str
    values: Tuple[object, ...]

    def router(self, at: int) -> str:
        """The value of this place, which is a router or a prefix."""
        return str(self.values[at])

    def asn(self, at: int) -> int:
        """The value of this place, which is an AS number."""
        value = self.values[at]
        assert isinstance(value, int)
        return value


@dataclass
class Invariants:
    """All invariants of a file, and the roles that it names."""
    listed: List[Invariant] = field(default_factory=list)
    roles: Roles = field(default_factory=Roles)

    def take(self, made: Invariant) -> None:
        """One more; Mistake where it gives an AS another role than it has."""
        if made.kind not in ROLES:
            self.listed.append(made)
            return
        of = made.asn(1) if len(made.values) > 1 else None
        before = self.roles.add(made.kind, made.asn(0), of)
        if before:
            whose = "" if of is None else " of AS%d" % of
            raise Mistake("`%s`: AS%d is a %s%s by an earlier line; leave one of both out" % (
                made.text, made.asn(0), before, whose), made.file, made.number)


def invariants_in(path: str, network: Network) -> Invariants:
    """The invariants of a file, for this network. Mistake, with file and line, where one is none, or names a router
    that is not there."""
    found = Invariants()
    for line in read(path):
        text = _text(line)
        if text:
            found.take(_invariant(line, text, network))
    return found


def _text(line: Line) -> str:
    """A line without its comment, its words parted by single spaces."""
    words = re.split(r"(?:^|\s)#", line.text)[0].split()
    return PARTED.sub("AS", " ".join(map(readable, words)))


def _invariant(line: Line, text: str, network: Network) -> Invariant:
    words = text.split(" ")
    form = next((form for form in FORMS if _is_of(words, form[1])), None)
    if form is None:
        raise Mistake("`%s` is no invariant: write %s" % (text, _meant(words)), line.file, line.number)
    values: List[object] = []
    for word, want in zip(words, form[1]):
        if want.isupper() or "|" in want:
            value = _value(word, want, network)
            if value is None:
                expected = " or ".join(EXPECTED[each] for each in want.split("|"))
                raise Mistake("`%s` in `%s`: %s is expected" % (word, text, expected), line.file, line.number)
            values.append(value)
    return Invariant(line.file, line.number, text, form[0], tuple(values))


def _is_of(words: List[str], form: List[str]) -> bool:
    """Whether the small words of a form stand in their places."""
    return len(words) == len(form) and all(want.isupper() or "|" in want or word == want
                                           for word, want in zip(words, form))


def _meant(words: List[str]) -> str:
    """The forms that the words look like; all where they look like none."""
    known = [(name, " ".join(form)) for name, form in FORMS]
    near = [spelling for name, spelling in known if name in words] or [spelling for _, spelling in known]
    return " or ".join("`%s`" % each for each in near)


def _value(word: str, want: str, network: Network) -> Optional[object]:
    """The value of a word where one of these is wanted; nothing where it is none."""
    known: Dict[str, object] = {}
    found = NUMBER.fullmatch(word)
    asn = number(found.group(1), 1) if found else None
    if asn is not None:
        known[AS] = asn
    if prefix(word) is not None:
        known[PREFIX] = word
    where = network.names.address_of(word)
    if network.is_router(where):
        known[ROUTER] = where
    return next((known[each] for each in want.split("|") if each in known), None)
