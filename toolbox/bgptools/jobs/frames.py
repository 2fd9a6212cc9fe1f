"""What a pool and a worker send each other: frames, each a head with its kind and size, and then its content."""
from __future__ import annotations

import json
import struct
from typing import Any, Dict, Iterable, List

# The first bytes of a head, which nothing else begins with; the kind; and how many bytes follow.
HEAD = struct.Struct("!4sBI")
MARK = b"bgpJ"
# To a worker: its limits, lines of a script behind those that it has, and what it is to do.
START, LINES, JOB = 1, 2, 3
# From a worker: the answer; the answer of one that ends then; why there is none; and why it ends without one.
ANSWER, LAST, MISTAKE, END = 4, 5, 6, 7
# To and from a worker: where things stand after so many lines.
PLACES = 8
# So many lines are one frame, so that the server's loop is never held up by many.
PART = 4096


class Garbage(Exception):
    """What was read is no frame, or a larger one than is expected."""


def head_of(kind: int, content: bytes) -> bytes:
    """The head of a frame."""
    return HEAD.pack(MARK, kind, len(content))


def read_head(head: bytes, largest: int) -> "tuple[int, int]":
    """The kind and size that a head tells. Garbage where it is none, or the size is beyond the largest."""
    mark, kind, size = HEAD.unpack(head)
    if mark != MARK:
        raise Garbage("it wrote what is no answer")
    if size > largest:
        raise Garbage("its answer has %d bytes, and at most %d are taken" % (size, largest))
    return kind, size


def json_out(value: Dict[str, Any]) -> bytes:
    """A job or limits as the content of a frame."""
    return json.dumps(value, separators=(",", ":")).encode("ascii")


def lines_out(lines: Iterable[str]) -> bytes:
    """Lines without their ends as the content of a frame."""
    return "".join([line + "\n" for line in lines]).encode("latin-1")


def lines_in(content: bytes) -> List[str]:
    """The lines of a frame's content."""
    return content.decode("latin-1").split("\n")[:-1]
