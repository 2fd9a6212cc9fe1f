"""What a change does, in numbers; the worst changes first."""
from __future__ import annotations

import hashlib
from dataclasses import asdict, dataclass, field
from typing import Any, Dict, FrozenSet, List, Set, Tuple

from ..change.comparison import Difference, is_gained_outside
from ..network.configuration import Network
from ..program.language import by_address, by_prefix, contains
from .families import HIJACK, SINGLE, Trial

# The numbers of a router: prefixes moved, lost and gained, and packets of it that are lost now.
Cell = List[int]
MOVED, LOST, GAINED, DROPPED = range(4)
KINDS = {"moved": MOVED, "lost": LOST, "gained": GAINED}


@dataclass
class Figures:
    """What a change does. `routes` has the numbers of each router with any; `down` counts sessions, `told` external
    neighbours that are told otherwise; `packets` go another way, `black_holes` and `loops` among them; `captured` counts
    the ASes whose packets a hijack leads to the hijacker; `gained_outside` counts gained routes that come not
    from inside the AS. `is_single` says that one failure takes from others what was not the failed router's own.
    `state` tells the routes of all routers apart from others, of a random order. `text` is what what-if tells; `mistake` why it tells nothing. `is_lost` says
    that what tried it died each time: it may be tried again."""
    moved: int = 0
    captured: int = 0
    lost: int = 0
    gained: int = 0
    gained_outside: int = 0
    black_holes: int = 0
    loops: int = 0
    packets: int = 0
    messages: int = 0
    down: int = 0
    is_converged: bool = True
    is_single: bool = False
    told: List[str] = field(default_factory=list)
    routes: Dict[str, Cell] = field(default_factory=dict)
    state: str = ""
    text: str = ""
    mistake: str = ""
    is_lost: bool = False

    def as_json(self) -> Dict[str, Any]:
        """The figures for a program."""
        return asdict(self)

    @property
    def is_bad(self) -> bool:
        """Whether something is lost, or does not converge."""
        return bool(self.lost or self.black_holes or self.loops or not self.is_converged or self.mistake)

    def rank(self) -> Tuple[int, ...]:
        """Orders changes, the worst first: single points of failure, then what does not converge, then by how much."""
        return (not self.mistake, not self.is_single, self.is_converged, -self.black_holes - self.loops, -self.lost,
                -self.captured, -self.gained_outside, -self.moved, -len(self.told), -self.gained, -self.packets, -self.messages)


def figures_of(difference: Difference, network: Network, messages: int, is_converged: bool) -> Figures:
    """The numbers of a difference, in the network with the change."""
    found = Figures(messages=messages, is_converged=is_converged, down=len(difference.down), packets=len(difference.ways),
                    black_holes=len(difference.black_holes), loops=len(difference.loops))
    found.told = sorted("%s %s" % way for way in difference.told)
    for router, changes in difference.routers.items():
        for change in changes:
            found.routes.setdefault(router, [0, 0, 0, 0])[KINDS[change.kind]] += 1
            found.gained_outside += is_gained_outside(network, router, change)
    found.gained_outside += sum(change.kind == "gained" for changes in difference.told.values() for change in changes)
    for way in difference.black_holes + difference.loops:
        found.routes.setdefault(way.router, [0, 0, 0, 0])[DROPPED] += 1
    found.moved, found.lost, found.gained = (sum(cell[kind] for cell in found.routes.values())
                                             for kind in (MOVED, LOST, GAINED))
    return found


def captured_by(trial: Trial, network: Network, difference: Difference) -> int:
    """The ASes of which some packets end at the hijacker's router now, but its own; none where the change is no hijack.

    All packets to the hijacked prefix that end there do so since the hijack: nothing in that AS originated it."""
    if trial.kind != HIJACK or not trial.lines:
        return 0
    _, router, to = trial.lines[0].words
    asns = {network.nodes[way.router].asn for way in difference.ways if way.after.end == "reached"
            and way.after.place == router and contains(by_prefix(to), (by_address(way.address), 32))}
    return len(asns - {network.nodes[router].asn})


def is_single_point(trial: Trial, before: Network, fed: Set[str], difference: Difference) -> bool:
    """Whether a failure of one link, router or session takes from a router that has not failed a route or a packet's
    way, other than to what the failed router itself originated. `fed` are the prefixes that virtual peers told."""
    if trial.kind not in SINGLE:
        return False
    own = _own(before, trial.failed) - fed
    return any(change.kind == "lost" and change.prefix not in own for router, changes in difference.routers.items()
               if router not in trial.failed for change in changes) or any(
        way.router not in trial.failed and way.before.place not in trial.failed
        for way in difference.black_holes + difference.loops)


def _own(network: Network, failed: FrozenSet[str]) -> FrozenSet[str]:
    """The prefixes that nobody but these routers originates."""
    others = {to for router, own in network.origins.items() if router not in failed for to in own}
    return frozenset(to for router in failed for to in network.origins.get(router, ())) - others


def together(parts: List[Figures]) -> Figures:
    """The figures of one change, from those of the parts of a network that was played by its prefixes."""
    if len(parts) == 1:
        return parts[0]
    found = Figures(is_converged=all(part.is_converged for part in parts), is_single=any(part.is_single for part in parts),
                    down=max(part.down for part in parts))
    for name in ("moved", "captured", "lost", "gained", "gained_outside", "black_holes", "loops", "packets", "messages"):
        setattr(found, name, sum(getattr(part, name) for part in parts))
    found.told = sorted({way for part in parts for way in part.told})
    for router, cell in (item for part in parts for item in part.routes.items()):
        found.routes[router] = [sum(both) for both in zip(cell, found.routes.get(router, [0, 0, 0, 0]))]
    found.state = hashlib.sha256(" ".join(part.state for part in parts).encode()).hexdigest() if parts[0].state else ""
    found.text = "\n".join("Prefixes, part %d of %d\n%s" % (number, len(parts), part.text)
                           for number, part in enumerate(parts, 1)) if parts[0].text else ""
    found.mistake = next((part.mistake for part in parts if part.mistake), "")
    return found
