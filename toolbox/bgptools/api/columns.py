"""The columns of a table of data classes: a field each, and of a field that is a data class again its fields."""
from __future__ import annotations

import dataclasses
import functools
from typing import Any, Callable, Dict, FrozenSet, List, NamedTuple, Optional, Tuple, Union, get_type_hints

from ..program.language_table import BEST, EXCLUSIONS, FILTERS, ORIGINS

# What pandas calls the types of columns.
TEXT, NUMBER, TRUTH, CATEGORY = "string", "Int64", "boolean", "category"
TYPES: Dict[Any, str] = {str: TEXT, int: NUMBER, bool: TRUTH}
REASONS = tuple(each.name for each in EXCLUSIONS + FILTERS) + (BEST,)
MESSAGES = ("update", "withdraw")
# The fields whose texts are of a few, with these.
CATEGORIES: Dict[Tuple[str, str], Tuple[str, ...]] = {
    ("Route", "origin"): ORIGINS, ("Reason", "reason"): REASONS, ("Explanation", "reason"): REASONS,
    ("Delivery", "kind"): MESSAGES, ("Message", "kind"): MESSAGES,
    ("RouteChange", "kind"): ("gained", "lost", "moved"),
    ("InBetween", "kind"): ("leaked", "told otherwise", "taken back"), ("Trace", "end"): ("reached", "noroute", "loop")}
# What an inner data class repeats of the outer one, as the route of a message its prefix.
REPEATED = frozenset(("router", "prefix", "source"))
Read = Callable[[Any], Any]


class Column(NamedTuple):
    """A column: its name, its type, how its cell is read off a row (None where there is nothing), and the texts that a
    column of categories has."""
    name: str
    type: str
    read: Read
    categories: Tuple[str, ...] = ()


@functools.lru_cache(maxsize=None)
def columns_of(kind: type) -> Tuple[Column, ...]:
    """The columns of a data class. Those of an inner one begin with the name of its field, but for what it repeats."""
    return tuple(_columns(kind, "", lambda row: row, frozenset()))


def _columns(kind: type, begin: str, read: Read, outer: FrozenSet[str]) -> List[Column]:
    found, hints = [], get_type_hints(kind)
    own = {each.name for each in dataclasses.fields(kind)}
    for name in sorted(own - outer, key=list(hints).index):
        inner, at = _given(hints[name]), _field(read, name)
        if dataclasses.is_dataclass(inner) and isinstance(inner, type):
            found += _columns(inner, begin + name + "_", at, outer | own & REPEATED)
        elif name == "hops":
            found.append(Column(begin + "routers", TEXT, _joined(_field(read, "routers"))))
        elif (kind.__name__, name) in CATEGORIES:
            found.append(Column(begin + name, CATEGORY, at, CATEGORIES[kind.__name__, name]))
        else:
            found.append(Column(begin + name, TYPES[inner], at) if inner in TYPES
                         else Column(begin + name, TEXT, _joined(at)))
    return found


def _given(hint: Any) -> Any:
    """The type of what is there, of one that may be absent."""
    words = [each for each in getattr(hint, "__args__", ()) if each is not type(None)]
    return words[0] if getattr(hint, "__origin__", None) is Union else hint


def _field(read: Read, name: str) -> Read:
    """Reads a field of what is read, if that is there."""
    def field(row: Any) -> Any:
        found = read(row)
        return None if found is None else getattr(found, name)
    return field


def _joined(read: Read) -> Read:
    """Several values in one text, as the command language lists them."""
    def joined(row: Any) -> Optional[str]:
        found = read(row)
        return None if found is None else ",".join(map(str, found))
    return joined
