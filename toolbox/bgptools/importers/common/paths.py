"""What an expression about paths finds, as rules that are exact for the paths that can occur: where the files show all
ASes by which routes may come, and what each originates."""
from __future__ import annotations

from typing import Dict, List, Set, Tuple

from .decision_lists import Choice, listed
from .expressions import Unreadable
from .path_expressions import Expression
from .policy import Match, Prefix, Region, Unsayable, is_
from .regions import Place, World

# So many paths at most are looked at.
MOST_PATHS = 2000
Path = Tuple[int, ...]


def paths_at(world: World, place: Place) -> List[Path]:
    """The paths that routes may have there, without what an AS puts in more than once: those of ASes that have
    sessions, each AS once; raises Unsayable where these are not known, or too many."""
    if world.sources(place) is None or not world.prefixes(place):
        raise Unsayable("paths that are not known")
    start, barred = ((place.other,), place.asn) if place.is_from_outside else ((), place.other)
    found: List[Path] = []
    waiting: List[Path] = [start]
    while waiting:
        path = waiting.pop()
        found.append(path)
        if len(found) > MOST_PATHS:
            raise Unsayable("more than %d paths" % MOST_PATHS)
        here = path[-1] if path else place.asn
        waiting += [path + (each,) for each in sorted(world.neighbours.get(here, ()))
                    if each not in path and each not in (barred, place.asn)]
    origins = world.origins or {}
    return sorted(path for path in found if origins.get(path[-1] if path else place.asn))


def occurring_region(said: str, world: World, place: Place) -> Region:
    """What an expression finds, of the paths that can occur; raises Unsayable."""
    try:
        expression = Expression(said)
    except Unreadable:
        raise Unsayable("this expression") from None
    owners = _owners(world)
    cells: List[Tuple[Path, Tuple[Prefix, ...]]] = []
    wanted: Dict[bool, int] = {True: 0, False: 0}
    for path in paths_at(world, place):
        is_found = expression.finds_path(path, world.prepending)
        if is_found is None:
            raise Unsayable("how often an AS stands in a path")
        for prefixes in owners.get(path[-1] if path else place.asn, ()):
            wanted[is_found] |= 1 << len(cells)
            cells.append((path, prefixes))
    return listed((1 << len(cells)) - 1, wanted, _choices(cells), lambda where: [])


def _owners(world: World) -> Dict[int, List[Tuple[Prefix, ...]]]:
    """The prefixes of each AS, those together that the same ASes originate."""
    by_prefix: Dict[Prefix, Set[int]] = {}
    for asn, prefixes in (world.origins or {}).items():
        for where in prefixes:
            by_prefix.setdefault(where, set()).add(asn)
    classes: Dict[Tuple[int, ...], List[Prefix]] = {}
    for where, asns in sorted(by_prefix.items()):
        classes.setdefault(tuple(sorted(asns)), []).append(where)
    found: Dict[int, List[Tuple[Prefix, ...]]] = {}
    for asns_of, those in classes.items():
        for asn in asns_of:
            found.setdefault(asn, []).append(tuple(those))
    return found


def _choices(cells: List[Tuple[Path, Tuple[Prefix, ...]]]) -> List[Choice]:
    """Rules that can stand next: about a first AS, one in the path, and about prefixes last."""
    masks: Dict[Tuple[Match, ...], int] = {}
    for at, (path, prefixes) in enumerate(cells):
        keys = [(Match("first", path[0]),)] if path else []
        keys += [(Match("path", asn),) for asn in path]
        for key in [*keys, tuple(is_(where) for where in prefixes)]:
            masks[key] = masks.get(key, 0) | 1 << at
    order = {"path": 0, "first": 1, "is": 2}
    return [Choice(masks[key], key) for key in sorted(masks, key=lambda each: (order[each[0].kind], len(each), str(each)))]
