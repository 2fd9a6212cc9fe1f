"""Documents of JSON: what a tool tells a program. docs/reference/json.md describes them, a schema each.

The names of fields are those of the data classes, without `is_`."""
from __future__ import annotations

import dataclasses
import json
import re
from typing import Any, Dict

from .language import escaped

VERSION = 1
# What a field is called otherwise than in its class.
NAMES = {"is_converged": "converged"}
# A byte of a file's name that is no UTF-8, as Python has it. JSON has no such character.
BYTE = re.compile("[\udc80-\udcff]")

Document = Dict[str, Any]


def document(tool: str, **fields: Any) -> Document:
    """What a tool tells, with the version of its form."""
    return {"version": VERSION, "tool": tool, **{name: plain(value) for name, value in fields.items()}}


def text_of(told: Document) -> str:
    """A document as the only one of its output."""
    return json.dumps(told, indent=2) + "\n"


def line_of(told: Document) -> str:
    """A document as one of many, a line each."""
    return json.dumps(told) + "\n"


def plain(value: Any) -> Any:
    """A value as JSON has it: data classes and named tuples as objects; other tuples, and sets in order, as arrays. A
    field that its class does not show is left out. A byte that is no text stands as `\\xff`."""
    if isinstance(value, str):
        return BYTE.sub(lambda found: escaped(found.group()), value)
    if dataclasses.is_dataclass(value) and not isinstance(value, type):
        shown = [each.name for each in dataclasses.fields(value) if each.repr]
        return {field_name(name): plain(getattr(value, name)) for name in shown}
    if isinstance(value, tuple) and hasattr(value, "_asdict"):
        return {field_name(name): plain(each) for name, each in value._asdict().items()}
    if isinstance(value, dict):
        return {plain(str(key)): plain(each) for key, each in value.items()}
    if isinstance(value, (set, frozenset)):
        return [plain(each) for each in sorted(value)]
    return [plain(each) for each in value] if isinstance(value, (list, tuple)) else value


def field_name(name: str) -> str:
    """What a field of a class is called in a document."""
    return NAMES.get(name) or (name[len("is_"):] if name.startswith("is_") else name)
