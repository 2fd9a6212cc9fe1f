"""C-BGP's filters as they are read: what a rule matches, and what it does."""
from __future__ import annotations

import re
from dataclasses import dataclass, field
from typing import List, Optional, Tuple

from ...program import communities
from ...program.language import address, number
from ..common.policy import Prefix
from .lines import Line

MOST_NUMBER = 2 ** 32 - 1
MOST_PARTS = 200
TOKEN = re.compile(r'\s*(?:("[^"]*")|([&|!()])|([^\s&|!()"]+))')


def prefix_of(text: str) -> Optional[Prefix]:
    """A prefix as C-BGP takes one: `10/8` is 10.0.0.0/8, and bits behind the length are dropped."""
    first, slash, last = text.partition("/")
    parts = first.split(".")
    at, length = address(".".join(parts + ["0"] * (4 - len(parts)))), number(last, 0, 32)
    return (at >> (32 - length) << (32 - length), length) if slash and at is not None and length is not None else None


@dataclass(frozen=True)
class Predicate:
    """What a rule is about: `kind` is any, not, and, or, prefix, comm, path or next-hop."""
    kind: str
    said: str = ""
    parts: Tuple["Predicate", ...] = ()
    where: Prefix = (0, 0)
    least: int = 0
    most: int = 32
    community: int = 0


ALWAYS = Predicate("any")


@dataclass(frozen=True)
class Deed:
    """One action: accept, deny, call, jump, pref, med, prepend, add, or `unknown`, which is none of these."""
    kind: str
    said: str
    value: int = 0


@dataclass
class Rule:
    """A rule of a filter or route map, with its line."""
    line: Line
    about: Predicate = ALWAYS
    deeds: List[Deed] = field(default_factory=list)


# Reading

class Reader:
    """Reads a predicate: `!` binds closest, then `&`, then `|`."""

    def __init__(self, text: str, line: Line) -> None:
        self.line, self.text, self.depth = line, text, 0
        self.tokens = self._tokens(text)

    def _tokens(self, text: str) -> List[str]:
        found: List[str] = []
        at, text = 0, text.rstrip()
        while at < len(text):
            token = TOKEN.match(text, at)
            if found[-1:] == ["path"] and token and not token.group(1):
                # An expression without quotes goes on to the next space.
                token = re.compile(r"\s*(\S+)").match(text, at)
            if token is None:
                raise self.line.mistake("`%s` is no match" % text[at:at + 60])
            found.append(next(each for each in token.groups() if each is not None))
            at = token.end()
        return found

    def whole(self) -> Predicate:
        """The predicate of all tokens."""
        found = self._either()
        if self.tokens:
            raise self.line.mistake("`%s` is not expected in a match" % self.tokens[0])
        return found

    def _either(self) -> Predicate:
        found = [self._all()]
        while self.tokens[:1] == ["|"]:
            self.tokens.pop(0)
            found.append(self._all())
        return found[0] if len(found) == 1 else Predicate("or", parts=tuple(found))

    def _all(self) -> Predicate:
        found = [self._one()]
        while self.tokens[:1] == ["&"]:
            self.tokens.pop(0)
            found.append(self._one())
        return found[0] if len(found) == 1 else Predicate("and", parts=tuple(found))

    def _one(self) -> Predicate:
        self.depth += 1
        if self.depth > MOST_PARTS:
            raise self.line.mistake("the match has more than %d parts" % MOST_PARTS)
        token = self._next("a match")
        if token == "!":
            return Predicate("not", parts=(self._one(),))
        if token == "(":
            found = self._either()
            if self._next("`)`") != ")":
                raise self.line.mistake("`)` is expected")
            return found
        if token in ("any", "path"):
            return ALWAYS if token == "any" else Predicate("path", said=self._next("an expression").strip('"'))
        return self._compared(token)

    def _next(self, wanted: str) -> str:
        if not self.tokens:
            raise self.line.mistake("%s is expected at the end of `%s`" % (wanted, self.text[:60]))
        return self.tokens.pop(0)

    def _compared(self, token: str) -> Predicate:
        how = self._next("`is` or `in`") if token in ("prefix", "community", "next-hop", "nexthop") else ""
        if token == "prefix" and how in ("is", "in", "ge", "le"):
            where, least, most = self._prefix(), 0, 32
            if how in ("ge", "le"):
                bound = number(self._next("a length"), where[1], 32)
                if bound is None:
                    raise self.line.mistake("a length of %d to 32 is expected behind `%s`" % (where[1], how))
                least, most = (bound, 32) if how == "ge" else (where[1], bound)
            kind = "prefix " + how if how in ("is", "in") else "prefix"
            return Predicate(kind, where=where, least=least, most=most)
        if token == "community" and how == "is":
            return Predicate("comm", community=community_of(self._next("a community"), self.line))
        if token in ("next-hop", "nexthop") and how in ("is", "in"):
            return Predicate("next-hop", said="next-hop %s %s" % (how, self._next("an address")))
        raise self.line.mistake("`%s` is no match: any, prefix is, prefix in, prefix ge, prefix le, community is, "
                                "next-hop is, next-hop in or path is expected" % " ".join([token, how]).strip()[:60])

    def _prefix(self) -> Prefix:
        text = self._next("a prefix")
        where = prefix_of(text)
        if where is None:
            raise self.line.mistake("`%s` is no prefix, as 10.0.0.0/8" % text[:60])
        return where


def community_of(text: str, line: Line) -> int:
    """A community as two halves, a number or a name; raises Mistake."""
    found = communities.meant(text)
    if found is None:
        raise line.mistake("`%s` is no community, as 65000:1" % text[:60])
    return found


NUMBERED = {"local-pref": "pref", "metric": "med", "med": "med", "as-path prepend": "prepend",
            "as-path-prepend": "prepend"}


def deeds_of(text: str, line: Line) -> List[Deed]:
    """The actions that a text lists, with commas between them; raises Mistake."""
    return [_deed(" ".join(part.split()), line) for part in text.split(",")]


def _deed(text: str, line: Line) -> Deed:
    head, _, last = text.rpartition(" ")
    if text in ("accept", "deny"):
        return Deed(text, text)
    if head in ("call", "jump"):
        return Deed(head, last.strip('"'))
    if head in NUMBERED and text != "metric internal":
        value = number(last, 0, MOST_NUMBER)
        if value is None:
            raise line.mistake("a number is expected behind `%s`, and not `%s`" % (head, last[:60]))
        return Deed(NUMBERED[head], text, value)
    if head == "community add":
        return Deed("add", text, community_of(last, line))
    known = ("metric internal", "community strip", "community remove", "ext-community", "red-community", "as-path")
    if text.startswith(known):
        return Deed("unknown", text)
    raise line.mistake("`%s` is no action: accept, deny, local-pref N, metric N, as-path prepend N, community add C, "
                       "community remove C, community strip, call MAP or jump MAP is expected" % text[:60])
