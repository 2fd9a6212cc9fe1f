"""What a request may be. Each is checked whole against this table before anything is done for it.

A request is one JSON object of at most 1 MiB, nested at most eight deep: `do` is one of the words below, `id` a number
or at most 64 characters, and each other field has its form. Texts have no control characters, and so no line ends."""
from __future__ import annotations

import json
import math
import sys
import unicodedata
from dataclasses import dataclass
from typing import Any, Callable, Dict, List

from ..program.mistakes import Mistake
from ..program.process import LONGEST_READ
from .proposal import LONGEST_NAME

Request = Dict[str, Any]
Schema = Dict[str, Any]
LONGEST, DEEPEST, LONGEST_ID, MOST_LINES = 1 << 20, 8, 64, 65536
# So many messages are delivered by one `step`, and steps have numbers below this.
STEPS, NUMBERS = 1000, 1 << 32
EXPECTED = 'a request is a line of JSON, as {"id": 1, "do": "who"}'


@dataclass(frozen=True)
class Field:
    """One field of a request. `form` says what is expected, for a reader; `fits` tells whether a value is that. The
    schema says the same as JSON Schema does, for programs (`request_schema`)."""
    form: str
    fits: Callable[[Any], bool]
    schema: Schema
    is_needed: bool = True


def is_text(value: Any, longest: int) -> bool:
    """Whether a value is a text of at most so many characters without control characters.

    Characters of `surrogateescape` stand for bytes that are not UTF-8; other halves of characters are refused."""
    if not isinstance(value, str) or len(value) > longest:
        return False
    return value.isprintable() or not any(map(_is_control, value))


def _is_control(character: str) -> bool:
    kind = unicodedata.category(character)
    return kind == "Cc" or kind in ("Zl", "Zp") or kind == "Cs" and not "\udc80" <= character <= "\udcff"


def _is_number(value: Any, least: int, most: int) -> bool:
    return isinstance(value, int) and not isinstance(value, bool) and least <= value <= most


def text_schema(longest: int) -> Schema:
    """What `is_text` takes. (A half of a character is refused by its code, as a schema's own text has none.)"""
    controls = r"[\u0000-\u001f\u007f-\u009f\u2028\u2029\ud800-\udc7f\udd00-\udfff]"
    return {"type": "string", "maxLength": longest, "not": {"pattern": controls}}


def _or_null(schema: Schema, needed: bool) -> Schema:
    return schema if needed else {"anyOf": [schema, {"type": "null"}]}


def _text(longest: int, needed: bool = True) -> Field:
    return Field("a text of at most %d characters without control characters" % longest,
                 lambda value: is_text(value, longest) or not needed and value is None,
                 _or_null(text_schema(longest), needed), needed)


def _number(most: int, needed: bool = True) -> Field:
    form = "a whole number from 0 to %d" % most + ("" if needed else ", or null")
    return Field(form, lambda value: _is_number(value, 0, most) or not needed and value is None,
                 _or_null({"type": "integer", "minimum": 0, "maximum": most}, needed), needed)


def _is_lines(value: Any) -> bool:
    return (isinstance(value, list) and len(value) <= MOST_LINES and all(is_text(each, LONGEST_READ) for each in value))


def _is_way(value: Any) -> bool:
    return value is None or isinstance(value, list) and len(value) == 2 and all(is_text(each, 64) for each in value)


def _is_pace(value: Any) -> bool:
    return value is None or isinstance(value, (int, float)) and not isinstance(value, bool) and math.isfinite(value)


# The numbers that are finite.
FINITE: Schema = {"type": "number", "minimum": -sys.float_info.max, "maximum": sys.float_info.max}
LINE = Field("one line of at most %d bytes, without control characters" % LONGEST_READ,
             lambda value: is_text(value, LONGEST_READ), text_schema(LONGEST_READ))
LINES = Field("a list of at most %d lines without control characters" % MOST_LINES, _is_lines,
              {"type": "array", "maxItems": MOST_LINES, "items": text_schema(LONGEST_READ)})
PACE = Field("a number, or null for as fast as can be", _is_pace,
             {"anyOf": [{"type": ["null", "integer"]}, FINITE]})
WATCHED = Field("`all`, `edits` or `off`", lambda value: value in ("all", "edits", "off"),
                {"enum": ["all", "edits", "off"]})
WAY = Field("a list of two addresses, or null", _is_way,
            _or_null({"type": "array", "minItems": 2, "maxItems": 2, "items": text_schema(64)}, False), False)
NOTHING: Dict[str, Field] = {}
PROPOSAL = {"number": _number(NUMBERS, False)}
# The fields of each word, beside `id` and `do`.
FIELDS: Dict[str, Dict[str, Field]] = {
    "enter": {"as": _text(80), "token": _text(64, False)}, "call": {"line": LINE}, "ask": {"line": LINE},
    "script": {"from": _number(NUMBERS)}, "waiting": NOTHING, "next": NOTHING, "watch": {"what": WATCHED},
    "who": NOTHING, "blame": {"router": _text(64)}, "undo": NOTHING, "pause": NOTHING, "go": NOTHING,
    "pace": {"a_second": PACE}, "step": {"count": _number(STEPS)}, "wait": NOTHING,
    "propose": {"name": _text(LONGEST_NAME), "lines": LINES}, "proposals": NOTHING,
    "accept": {**PROPOSAL, "edits": _number(NUMBERS, False)}, "decline": PROPOSAL, "check": NOTHING, "free": {"name": _text(80)},
    "show": {"step": _number(NUMBERS, False), "prefix": _text(64, False), "way": WAY, "router": _text(64, False)}}


class Malformed(Mistake):
    """A request that is none, with the `id` to which the error is answered."""

    def __init__(self, text: str, number: Any = None) -> None:
        super().__init__(text)
        self.number = number


def request_in(line: bytes) -> Request:
    """The request that a line holds. Malformed where it holds none, or one of its fields does not fit."""
    request = _decoded(line)
    number, word = request.get("id"), request.get("do")
    if not is_id(number):
        raise Malformed("`id` is expected to be a number, or a text of at most %d characters" % LONGEST_ID)
    if not isinstance(word, str):
        raise Malformed(EXPECTED, number)
    if word not in FIELDS:
        named = word[:40] if is_text(word, LONGEST) else "?"
        raise Malformed("there is no request `%s`: docs/reference/share.md lists them" % named, number)
    for name, field in FIELDS[word].items():
        if not field.fits(request.get(name)) or field.is_needed and name not in request:
            raise Malformed("`%s` of the request `%s` is expected to be %s" % (name, word, field.form), number)
    unknown = sorted(set(request) - {"id", "do", *FIELDS[word]})
    if unknown:
        named = unknown[0] if is_text(unknown[0], 40) else "?"
        raise Malformed("the request `%s` has no field `%s`" % (word, named), number)
    return request


def _decoded(line: bytes) -> Request:
    """The object that a line holds, of bounded depth."""
    try:
        value = json.loads(line.decode("utf-8"), parse_constant=_no_number)
    except (ValueError, RecursionError):
        raise Malformed(EXPECTED) from None
    if not isinstance(value, dict):
        raise Malformed(EXPECTED)
    if depth_of(value) > DEEPEST:
        raise Malformed("a request is nested at most %d deep" % DEEPEST)
    return value


def _no_number(text: str) -> float:
    raise ValueError("%s is no number of JSON" % text)


def is_id(value: Any) -> bool:
    """Whether a value may be the `id` of a request: a number, a short text, or none."""
    if isinstance(value, bool):
        return False
    if isinstance(value, int):
        return abs(value) < 1 << 63
    return value is None or isinstance(value, float) and math.isfinite(value) or is_text(value, LONGEST_ID)


def depth_of(value: Any) -> int:
    """How deep lists and objects are nested in one another; 0 for a plain value."""
    level, depth = [value], 0
    while True:
        nested: List[Any] = [each for each in level if isinstance(each, (list, dict))]
        if not nested:
            return depth
        depth += 1
        level = [inner for each in nested for inner in (each.values() if isinstance(each, dict) else each)]


