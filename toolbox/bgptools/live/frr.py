"""What FRR answers to `show ip bgp json`, or to `show ip bgp detail json`."""
from __future__ import annotations

import json
from typing import Any, Dict, List, Optional, Tuple

from ..importers.frr.communities import NAMES
from ..program import communities
from ..program.mistakes import Mistake
from .routes import LiveRoute

NO_PEER = ("", "(unspec)", "0.0.0.0")
ABSENT = -1


def routes_of(text: str, file: str) -> List[LiveRoute]:
    """The routes that are marked as best; raises Mistake where the text is no such answer."""
    try:
        told = json.loads(text)
        found = told["routes"]
        preference = int(told.get("defaultLocPrf", 100))
        return [_route(prefix, path, preference) for prefix, paths in found.items()
                for path in _paths(paths) if _is_best(path)]
    except (ValueError, KeyError, TypeError, AttributeError, RecursionError):
        raise Mistake("it is no answer of FRR; save that of `show ip bgp json`", file) from None


def _paths(found: Any) -> List[Dict[str, Any]]:
    """The paths of a prefix: as they are, or, in detail, behind what is said of the prefix."""
    return [path for path in (found["paths"] if isinstance(found, dict) else found)]


def _is_best(path: Dict[str, Any]) -> bool:
    best = path.get("bestpath")
    return bool(best.get("overall")) if isinstance(best, dict) else bool(best)


def _route(prefix: str, path: Dict[str, Any], preference: int) -> LiveRoute:
    is_detailed = isinstance(path.get("peer"), dict)
    peer = str(path["peer"]["peerId"] if is_detailed else path.get("peerId", ""))
    said = path["aspath"]["string"] if is_detailed else path["path"]
    hops = [str(each["ip"]) for each in path.get("nexthops", ()) if "ip" in each]
    own = "" if peer in NO_PEER else peer
    return LiveRoute(prefix, own, hops[0] if hops else "", _path(str(said)), int(path.get("metric", ABSENT)),
                     int(path.get("locPrf", preference)), _communities(path, is_detailed))


def _path(said: str) -> str:
    return "-" if said in ("", "Local") else said.replace(" ", ",")


def _communities(path: Dict[str, Any], is_detailed: bool) -> Optional[Tuple[int, ...]]:
    """The communities, which the short answer does not have; nothing where one has a name that is not known."""
    if "community" not in path:
        return () if is_detailed else None
    words = str(path["community"]["string"]).split(" ")
    found = [NAMES.get(word, communities.read(word)) for word in words]
    known = [number for number in found if number is not None]
    return tuple(sorted(known)) if len(known) == len(found) else None
