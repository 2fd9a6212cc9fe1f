"""Whose each seat of a log is, and the tokens by which people enter by their names."""
from __future__ import annotations

import hashlib
import hmac
import re
from typing import Dict, List, Optional, Set

from ..program.language import escaped
from ..program.mistakes import Mistake
from .log import SEATS

BESIDE = ".seats"
SCRIPT = "the script"
WORKER = "worker %d"
# No space, so that no name is that of the script, of a worker, or of a seat whose name is not known; and none of the
# letters that look like one.
USABLE = re.compile(r"[^\s\x00-\x20\x7f-\x9f\u115f\u1160\u2800\u3164\uffa0]{1,32}")
OWN = re.compile(r"the script|(worker|seat) (0|[1-9][0-9]{0,9})")
# Who gives no name is called so, and the next ones as well, with a number.
NAMELESS = "page"
LONGEST_TOKEN = 200


class Seats:
    """Whose each seat is: a name has one seat, however often it comes. A person enters by a name with its token, of
    which only the SHA-256 is kept, in `digests` by seat."""

    def __init__(self) -> None:
        self.names: Dict[int, str] = {}
        self.numbers: Dict[str, int] = {}
        self.digests: Dict[int, str] = {}

    def give(self, seat: int, name: str) -> None:
        """The seat is that of the name. Mistake where it is another one's, or the name has another seat."""
        if self.names.get(seat, name) != name or self.numbers.get(name, seat) != seat:
            told = "seat %d is that of %s, and cannot be that of %s, too" if seat in self.names else \
                "%s has seat %d, and cannot have another one"
            raise Mistake(told % ((seat, self.names[seat], name) if seat in self.names else (name, self.numbers[name])))
        self.names[seat], self.numbers[name] = name, seat

    def taken(self, seat: int) -> None:
        """A log has calls of the seat, and nobody knows whose it is."""
        if seat not in self.names:
            self.give(seat, self.name_of(seat))

    def name_of(self, seat: int) -> str:
        """Whose the seat is, as it is shown."""
        return self.names.get(seat, "seat %d" % seat)

    def of(self, name: str) -> int:
        """The seat of a name, or the one that it would have. Mistake where all are taken."""
        if name in self.numbers:
            return self.numbers[name]
        free = next((seat for seat in range(SEATS) if seat not in self.names), None)
        if free is None:
            raise Mistake("no seat is left for %s: a log has %d" % (name, SEATS))
        return free

    def nameless(self, here: Set[int]) -> str:
        """A name for who gives none: one that nobody has a token of, and nobody is here by."""
        number, name = 1, NAMELESS
        while name in self.numbers and (self.numbers[name] in self.digests or self.numbers[name] in here):
            number += 1
            name = "%s%d" % (NAMELESS, number)
        return name

    # Tokens

    def lock(self, seat: int, digest: str) -> None:
        """From now on the seat is entered with the token of this digest; with any where it is empty."""
        self.digests.pop(seat, None)
        if digest:
            self.digests[seat] = digest

    def with_token(self, token: Optional[str]) -> List[int]:
        """The seats that a token is for."""
        given = "" if token is None else digest_of(token)
        return [seat for seat, digest in self.digests.items() if hmac.compare_digest(digest, given)]


def digest_of(token: str) -> str:
    """What is kept of a token. Mistake where it is no text, or too long."""
    if not isinstance(token, str) or len(token) > LONGEST_TOKEN:
        raise Mistake("a token is a text of at most %d characters" % LONGEST_TOKEN)
    return hashlib.sha256(token.encode("utf-8", "surrogatepass")).hexdigest()


def is_name(name: str) -> bool:
    """Whether a name can be that of a seat: of a person, the script, a worker, or by its number."""
    return bool(OWN.fullmatch(name)) or _is_usable(name)


def check_name(name: str) -> None:
    """Mistake where a name cannot be that of a person."""
    if not isinstance(name, str) or not _is_usable(name):
        raise Mistake("a name is 1 to 32 characters without a space, and `%s` is none" % escaped(str(name)[:80]))


def _is_usable(name: str) -> bool:
    return bool(USABLE.fullmatch(name)) and name.isprintable()
