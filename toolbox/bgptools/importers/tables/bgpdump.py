"""Lines of a table as `bgpdump -m` prints it."""
from __future__ import annotations

import ipaddress
import re
from typing import List, Optional, Set, Tuple

from ...program import communities
from ...program.language import address, number, prefix
from ...program.language_table import ORIGIN_NAMES, WELL_KNOWN
from ...program.mistakes import Mistake
from .feeds import Feed

FORM = "TABLE_DUMP2|time|B|peer|AS|prefix|path|origin|next hop|local preference|MED|communities|.. is expected"
# In a line `TABLE_DUMP2_AP`, of ADD-PATH, a path identifier stands before the path: from-mrt reads such a table.
DUMPS = ("TABLE_DUMP2", "TABLE_DUMP")
AGGREGATES = ("AG", "NAG")
ORIGINS = {name: word for word, name in ORIGIN_NAMES.items()}
# The well-known ones by their names in RFC 1997, and the third by the name that bgpdump prints.
NAMED = {name: number for number, name in WELL_KNOWN.items()}
NAMED["LOCAL_AS"] = communities.NO_EXPORT_SUBCONFED
# A large community (RFC 8092), or an extended one (RFC 4360) with the name of its type.
NOT_MODELLED = re.compile(r"([0-9]+:){2}[0-9]+|(rt|ro|soo|target|origin|generic):[0-9a-fx.:]+", re.IGNORECASE)


def path_of(text: str) -> Optional[str]:
    """A path of the dump in the words of the command language: `7 21 {3,2}` is `7,21_{2,3}`."""
    segments: List[str] = []
    run: List[str] = []
    for word in text.split():
        inside = re.fullmatch(r"\{([0-9, ]+)\}", word)
        numbers = [number(each, 1) for each in (inside.group(1) if inside else word).split(",")]
        if None in numbers or not inside and len(numbers) > 1:
            return None
        if inside:
            segments += [",".join(run)] if run else []
            segments.append("{%s}" % ",".join(map(str, sorted(set(n for n in numbers if n is not None)))))
            run = []
        else:
            run.append(word)
    return "_".join(segments + ([",".join(run)] if run else [])) or None


def community_of(word: str) -> Optional[int]:
    """The number of a community as a dump has it: two halves, or a name in any case, as `no-export`."""
    return communities.read(word) if ":" in word else NAMED.get(word.upper().replace("-", "_"))


def communities_of(text: str, path: str, at: int) -> Tuple[List[int], List[str]]:
    """The communities of a line in ascending order, each once; and the words of those that are not modelled."""
    found: Set[int] = set()
    others: List[str] = []
    for word in text.split():
        value = community_of(word)
        if value is not None:
            found.add(value)
        elif NOT_MODELLED.fullmatch(word):
            others.append(word)
        else:
            raise Mistake("`%s` is no community: --no-communities reads none" % word[:60], path, at)
    return sorted(found), others


def column_of(parts: List[str]) -> str:
    """The communities of a line, with the large ones, which `bgpdump -l` prints in a field of their own."""
    return " ".join(parts[11:12] + [part for part in parts[12:13] if part not in ("AG", "NAG")])


def is_end(parts: List[str]) -> bool:
    """Whether what stands behind the communities says if a route is an aggregate; large communities may be before."""
    return len(parts) < 2 or parts[0] in AGGREGATES or parts[1] in (*AGGREGATES, "")


def is_six(text: str) -> bool:
    """Whether a text is an address of IPv6."""
    try:
        return ":" in text and bool(ipaddress.IPv6Address(text))
    except ValueError:
        return False


def feed_of(text: str, path: str, at: int, reads_communities: bool) -> Optional[Feed]:
    """A line of the dump, or nothing for one of IPv6. Its peer may have an address of IPv6 all the same."""
    parts = text.split("|")
    if len(parts) < 11 or parts[0] not in DUMPS or parts[2] not in ("B", "R"):
        raise Mistake("%s, and not `%s`" % (FORM, text[:60]), path, at)
    if is_six(parts[5].partition("/")[0]):
        return None
    asn, found = number(parts[4], 1), path_of(parts[6])
    for is_wrong, said in ((address(parts[3]) is None and not is_six(parts[3]), "the peer `%s` is no address" % parts[3]), (asn is None, "`%s` is no AS number" % parts[4]),
                           (prefix(parts[5]) is None, "`%s` is no prefix" % parts[5]), (found is None, "`%s` is no path" % parts[6][:60]),
                           (parts[7] not in ORIGINS, "the origin `%s` is none of IGP, EGP, INCOMPLETE" % parts[7]),
                           (parts[10] not in ("", "-") and number(parts[10]) is None, "the MED `%s` is no number" % parts[10]),
                           (not is_end(parts[12:]),
                            "`AG` or `NAG` is expected, and not `%s`" % "|".join(parts[12:14])),
                           (address(parts[8]) is None and not is_six(parts[8]),
                            "the next hop `%s` is no address" % parts[8]),
                           (parts[9] not in ("", "-") and number(parts[9]) is None,
                            "the preference `%s` is no number" % parts[9])):
        if is_wrong:
            raise Mistake(said[:100], path, at)
    med = parts[10] if parts[10] not in ("", "-") else "-"
    marks, others = communities_of(column_of(parts) if reads_communities else "", path, at)
    return Feed(parts[3], asn or 0, parts[5], found or "-", ORIGINS[parts[7]], med, marks, others)
