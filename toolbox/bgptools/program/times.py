"""Times of a script. A comment `# time 2026-12-01T12:00:00Z` gives the time of what follows: ISO 8601, UTC."""
from __future__ import annotations

import argparse
import datetime
import re
from typing import Optional

MARK = re.compile(r" *# *time +([^ ]+) *")
FORM = re.compile(r"([0-9]{4})-([0-9]{2})-([0-9]{2})(?:T([0-9]{2}):([0-9]{2})(?::([0-9]{2})(?:\.([0-9]{1,6}))?)?)?Z?")
EPOCH = datetime.datetime(1970, 1, 1)
SECOND = 1000000


def read(text: str) -> Optional[int]:
    """The time that a text spells, in microseconds since 1970 (UTC); nothing where it spells none."""
    found = FORM.fullmatch(text)
    if found is None:
        return None
    parts = [int(part or 0) for part in found.groups()[:6]] + [int((found.group(7) or "0").ljust(6, "0"))]
    try:
        return (datetime.datetime(*parts) - EPOCH) // datetime.timedelta(microseconds=1)  # type: ignore[arg-type]
    except ValueError:
        return None


def told(time: int) -> str:
    """A time in microseconds since 1970 as text; parts of a second stand there where it has any."""
    when = EPOCH + datetime.timedelta(microseconds=time)
    return when.isoformat(timespec="microseconds" if time % SECOND else "seconds") + "Z"


def mark(time: int) -> str:
    """The comment that gives a time."""
    return "# time " + told(time)


def marked(line: str) -> Optional[int]:
    """The time that a comment of a script gives; nothing where the line is no such comment."""
    found = MARK.fullmatch(line)
    return None if found is None else read(found.group(1))


def argument(text: str) -> int:
    """For a parser: a time."""
    found = read(text)
    if found is None:
        raise argparse.ArgumentTypeError(
            "`%s` is no time: ISO 8601 in UTC is expected, as 2026-12-01T12:00:00Z or 2026-12-01" % text[:60])
    return found
