"""Messages of the protocol: one JSON value a line, and script lines as text."""
from __future__ import annotations

import json
from typing import Any, Dict

from ..program.mistakes import Mistake

Message = Dict[str, Any]
# A member who gets this asks for the network anew: something that happened could not be told.
MISSED = b'{"event":"missed","text":"something that happened could not be told: the network is read again"}\n'
# The answer where not even an error could be put into words.
UNANSWERED = b'{"id":null,"error":"the answer could not be made: ask again, or look at the network"}\n'


def bytes_of(text: str) -> str:
    """A text as a script has it: one character of latin-1 for each byte. Mistake where it is not well-formed text."""
    try:
        return text.encode("utf-8", "surrogateescape").decode("latin-1")
    except UnicodeError:
        raise Mistake("the text has half of a character in it: send whole characters") from None


def shown(line: str) -> str:
    """A script's line as text. Bytes that are not UTF-8 stand as Python's `surrogateescape` has them."""
    return line.encode("latin-1").decode("utf-8", "surrogateescape")


def encoded(message: Message) -> bytes:
    """A message as its line."""
    return json.dumps(message, separators=(",", ":")).encode("ascii") + b"\n"
