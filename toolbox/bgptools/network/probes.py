"""An address of each prefix, to which packets are followed."""
from __future__ import annotations

from typing import Dict, Iterable, List

from ..program.language import by_prefix, contains, prefix


def probes_by_prefix(prefixes: Iterable[str]) -> Dict[str, int]:
    """An address of each prefix, in order, that is in no longer one, where there is such an address among the first,
    the last and the middle ones."""
    known = sorted(set(prefixes), key=by_prefix)
    values = [(each, value) for each, value in zip(known, map(prefix, known)) if value]
    found = {}
    for name, one in values:
        size = 2 ** (32 - one[1])
        inner = [other for _, other in values if other != one and contains(one, other)]
        offsets = (min(1, size - 1), max(size - 2, 0), size // 2, size // 4, 3 * size // 4)
        tried = [one[0] + offset for offset in offsets]
        found[name] = next((each for each in tried if not any(contains(other, (each, 32)) for other in inner)), tried[0])
    return found


def probes_of(prefixes: Iterable[str]) -> List[int]:
    """The same addresses, each once, in order."""
    return sorted(set(probes_by_prefix(prefixes).values()))
