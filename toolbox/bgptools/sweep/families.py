"""Changes of one family, each to be tried on its own: failures, pairs of them, hijacks, files, random orders."""
from __future__ import annotations

import math
import os
import random
from dataclasses import dataclass
from typing import Callable, Dict, FrozenSet, List, Optional, Tuple

from ..network.configuration import Network, ends
from ..program.language import by_address, escaped, prefix
from ..program.mistakes import Mistake
from ..program.script import Line, read

LINK, ROUTER, SESSION, PAIR, HIJACK, FILE, ORDER = "link", "router", "session", "pair", "hijack", "file", "order"
KINDS = (LINK, ROUTER, SESSION, PAIR, HIJACK, FILE, ORDER)
# What fails on its own.
SINGLE = (LINK, ROUTER, SESSION)


@dataclass(frozen=True)
class Trial:
    """A change to be tried. `failed` are the routers that it takes out of the network; `seed` is that of a random
    order, where the change is that alone."""
    kind: str
    title: str
    lines: Tuple[Line, ...] = ()
    failed: FrozenSet[str] = frozenset()
    seed: int = 0


def _trial(kind: str, title: str, commands: List[str], failed: FrozenSet[str] = frozenset()) -> Trial:
    return Trial(kind, title, tuple(Line(title, number, text) for number, text in enumerate(commands, 1)), failed)


def _links_up(network: Network) -> List[List[str]]:
    found = [ends(both) for both, link in network.links.items() if link.is_up]
    return sorted(found, key=lambda both: (by_address(both[0]), by_address(both[1])))


def _sessions_enabled(network: Network) -> List[List[str]]:
    return [[one, other] for one, other in network.sessions() if network.enabled[frozenset((one, other))]]


def _titled(kind: str, network: Network, both: List[str]) -> str:
    return "%s %s and %s" % (kind, *map(network.names.shown, both))


def links(network: Network) -> List[Trial]:
    """Each link that is up fails."""
    return [_trial(LINK, _titled(LINK, network, both), ["fail %s %s" % tuple(both)]) for both in _links_up(network)]


def sessions(network: Network) -> List[Trial]:
    """Each session that is enabled is stopped."""
    return [_trial(SESSION, _titled(SESSION, network, both), ["stop %s %s" % tuple(both)])
            for both in _sessions_enabled(network)]


def routers(network: Network) -> List[Trial]:
    """Each router fails: all its links do, and its sessions are stopped."""
    lines: Dict[str, List[str]] = {router: [] for router in network.routers()}
    ways = [("fail", both) for both in _links_up(network)] + [("stop", both) for both in _sessions_enabled(network)]
    for word, both, end in ((word, both, end) for word, both in ways for end in both if end in lines):
        lines[end].append("%s %s %s" % (word, *both))
    return [_trial(ROUTER, "router " + network.names.shown(router), found, frozenset((router,)))
            for router, found in lines.items()]


def pairs(singles: List[Trial], sample: Optional[int], seed: int) -> List[Trial]:
    """Each two of these at once, or so many of the pairs, drawn by lot: the same for the same number."""
    count = len(singles) * (len(singles) - 1) // 2
    places = [(one, other) for other in range(len(singles)) for one in range(other)] if sample is None else \
        [_pair_at(at) for at in sorted(random.Random(seed).sample(range(count), min(sample, count)))]
    return [_both(singles[one], singles[other]) for one, other in sorted(places)]


def _pair_at(at: int) -> Tuple[int, int]:
    """The pair of this place among (0, 1), (0, 2), (1, 2), (0, 3) and so on."""
    other = (math.isqrt(8 * at + 1) + 1) // 2
    return at - other * (other - 1) // 2, other


def _both(one: Trial, other: Trial) -> Trial:
    commands = list(dict.fromkeys(line.text for line in one.lines + other.lines))
    return _trial(PAIR, "%s + %s" % (one.title, other.title), commands, one.failed | other.failed)


def hijacks(network: Network, to: str) -> List[Trial]:
    """Each AS in which nobody originates the prefix does, at its router of the lowest address."""
    if prefix(to) is None:
        raise Mistake("--hijack %s: a prefix is expected, as 203.0.113.0/24" % to)
    owners = {network.nodes[router].asn for router, own in network.origins.items() if to in own}
    firsts: Dict[int, str] = {}
    for router in network.routers():
        firsts.setdefault(network.nodes[router].asn, router)
    shown = network.names.shown
    return [_trial(HIJACK, "hijack of %s by AS %d at %s" % (to, asn, shown(router)), ["origin %s %s" % (router, to)])
            for asn, router in sorted(firsts.items()) if asn not in owners]


def files(folder: str) -> List[Trial]:
    """The changes of a folder, a file each, in the order of their names. Hidden files are none."""
    try:
        names = sorted(name for name in os.listdir(folder) if not name.startswith("."))
    except OSError as error:
        raise Mistake("it cannot be read: %s" % error.strerror, folder) from None
    found = [Trial(FILE, "file " + escaped(name), tuple(read(os.path.join(folder, name)))) for name in names]
    if not found:
        raise Mistake("a folder with a file for each change is expected, and it is empty", folder)
    return found


def orders(count: int) -> List[Trial]:
    """The base converged in so many random orders."""
    return [Trial(ORDER, "order %d" % seed, seed=seed) for seed in range(1, count + 1)]


FAILURES: Dict[str, Callable[[Network], List[Trial]]] = {
    "fail_links": links, "fail_routers": routers, "fail_sessions": sessions}
