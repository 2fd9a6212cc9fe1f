"""Communities of a route (RFC 1997): numbers of 32 bits, shown in two halves, the AS that gave it and a number of that AS's own."""
from __future__ import annotations

import re
from typing import Iterable, List, Optional, Sequence

from .language_table import WELL_KNOWN

NO_EXPORT, NO_ADVERTISE, NO_EXPORT_SUBCONFED = WELL_KNOWN
MOST = 0xFFFFFFFF
ATTRIBUTE = re.compile(r"\bcomms=([0-9]+(?:,[0-9]+)*)")


def shown(number: int) -> str:
    """A community as its halves, `65000:1`; a well-known one by its name in RFC 1997."""
    return WELL_KNOWN.get(number) or "%d:%d" % (number >> 16, number & 0xFFFF)


def shown_all(numbers: Iterable[int]) -> str:
    """Each of them, with one space between."""
    return " ".join(shown(number) for number in numbers)


def read(text: str) -> Optional[int]:
    """The community that is written as two halves or as one number. None where it is neither."""
    halves = re.fullmatch(r"(0|[1-9][0-9]{0,4}):(0|[1-9][0-9]{0,4})", text)
    if halves:
        high, low = int(halves.group(1)), int(halves.group(2))
        return high << 16 | low if high <= 0xFFFF and low <= 0xFFFF else None
    if re.fullmatch(r"0|[1-9][0-9]{0,9}", text) and int(text) <= MOST:
        return int(text)
    return None


def meant(text: str) -> Optional[int]:
    """The community that is read so, or that has this name, as `NO_EXPORT` or `no-export`."""
    name = text.upper().replace("-", "_")
    named = next((number for number, known in WELL_KNOWN.items() if known == name), None)
    return read(text) if named is None else named


def told(numbers: Sequence[int]) -> str:
    """Communities as every tool tells them: numbers, and what each is shown as, `5,4294967041 (0:5 NO_EXPORT)`."""
    return "%s (%s)" % (",".join(map(str, numbers)), shown_all(numbers)) if numbers else "-"


def in_text(text: str) -> str:
    """Text with each `comms=N,N..` told so."""
    return ATTRIBUTE.sub(lambda found: "comms=" + told(list(map(int, found.group(1).split(",")))), text)


def withholding(numbers: Iterable[int], is_external: bool) -> List[int]:
    """Those by which a route is not advertised to a peer, which is in another AS or in the same."""
    keeping = (NO_ADVERTISE, NO_EXPORT, NO_EXPORT_SUBCONFED) if is_external else (NO_ADVERTISE,)
    return [number for number in keeping if number in numbers]


def reach(numbers: Iterable[int]) -> str:
    """To whom a route is not told by what it carries; empty where that keeps it from nobody."""
    keeping = withholding(numbers, True)
    if not keeping:
        return ""
    return "%s: told to %s" % (shown_all(keeping), "no peer" if NO_ADVERTISE in keeping else "no other AS")
