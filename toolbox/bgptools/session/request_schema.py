"""The table of `requests` as JSON Schema, for programs that make requests: docs/reference/schemas/request.json."""
from __future__ import annotations

from typing import Dict

from .requests import FIELDS, FINITE, LONGEST_ID, Field, Schema, text_schema

# The numbers of 64 bits with a sign, but for the least.
MOST = (1 << 63) - 1
ID: Schema = {"anyOf": [{"type": "null"}, {"type": "integer", "minimum": -MOST, "maximum": MOST},
                        {**FINITE, "not": {"type": "integer"}}, text_schema(LONGEST_ID)]}


def request_schema() -> Schema:
    """What a request may be, of draft 4: a whole number is one that is written without a point."""
    return {"$schema": "http://json-schema.org/draft-04/schema#", "title": "A request to share and lab",
            "anyOf": [_of(word, fields) for word, fields in FIELDS.items()]}


def _of(word: str, fields: Dict[str, Field]) -> Schema:
    """The requests of one word."""
    needed = sorted(name for name, field in fields.items() if field.is_needed)
    return {"type": "object", "required": ["do", *needed], "additionalProperties": False,
            "properties": {"do": {"enum": [word]}, "id": ID, **{name: each.schema for name, each in fields.items()}}}
