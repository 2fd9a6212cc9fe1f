"""What the table of the command language is made of: `language_table` has its rows, and is made of language.toml."""
from __future__ import annotations

from typing import List, NamedTuple, Optional, Tuple


class Form(NamedTuple):
    """How a command is spelled, and what it does; the numbers of the refusals that it can meet, in the order of their
    tests; the form of its reply. `scope` is whose routes an edit can change: of `nobody`, of the `ases` at its ends, of
    its `ends`, of its `router`. `opposite` takes it back; `call` is its name in Python, where that is another one."""
    spelling: str
    meaning: str
    group: str
    refusals: Tuple[int, ...] = ()
    reply: str = ""
    scope: str = ""
    opposite: str = ""
    call: str = ""

    @property
    def words(self) -> List[str]:
        return self.spelling.split()

    @property
    def name(self) -> str:
        return self.words[0]

    @property
    def least(self) -> int:
        """How many of its words have to be there: one in brackets may be left out."""
        return sum(not word.startswith("[") for word in self.words)

    def place(self, word: str) -> Optional[int]:
        """Where a word stands in the spelling."""
        return self.words.index(word) if word in self.words else None


class Kind(NamedTuple):
    """A kind of values: what a mistake is told to write instead, and the range of one that is a number."""
    name: str
    expected: str
    low: int = 0
    high: int = 0


class Match(NamedTuple):
    """Which routes a rule is about: a word, and what stands behind it."""
    word: str
    meaning: str
    argument: str = ""

    def __str__(self) -> str:
        return " ".join(filter(None, (self.word, self.argument)))


class Setting(NamedTuple):
    """What `permit` can set."""
    name: str
    meaning: str
    low: int
    high: int


class RefusalKind(NamedTuple):
    """A refusal: when a command meets it, and what to write instead."""
    number: int
    name: str
    meaning: str
    instead: str


class ReplyForm(NamedTuple):
    """A reply: one line of `one_of`; or lines `each`, one of `last` where there is any, and `end N`."""
    name: str
    one_of: Tuple[str, ...] = ()
    each: str = ""
    of: str = ""
    last: Tuple[str, ...] = ()


class Attribute(NamedTuple):
    """An attribute of a route in a reply; one that is optional is left out where it is absent."""
    name: str
    meaning: str
    optional: bool = False


class Limit(NamedTuple):
    """How much the program takes, and which commands meet that."""
    name: str
    most: int
    of: str
    commands: Tuple[str, ...] = ()


class Exclusion(NamedTuple):
    """Why a route may not be chosen: what tools say, and what is tested."""
    name: str
    meaning: str
    test: str
    rfc: str


class Filter(NamedTuple):
    """By what an eligible route is dropped: what tools say (`always`, where MED is compared over all neighbours), and
    what another has that is preferred. `value` is what is compared, `short` the same in a picture."""
    name: str
    meaning: str
    test: str
    short: str
    rfc: str
    value: str = ""
    always: str = ""
