"""Routes of one AS that are passed on to another, where no role says whether that is meant."""
from __future__ import annotations

from typing import Dict, Iterator, Tuple

from ..invariants.roles import CUSTOMER, Roles
from ..invariants.state import State
from ..invariants.verdicts import named, passed_on
from ..network.configuration import Direction
from .finding import Finding


def transit(state: State, roles: Roles) -> Iterator[Finding]:
    """Each session by which an AS passes on what it learned from others, unless a role allows or forbids that."""
    nodes, shown = state.network.nodes, state.network.names.shown
    found: Dict[Direction, Tuple[Dict[int, None], Dict[str, None]]] = {}
    for way, passed in passed_on(state).items():
        own, to = nodes[way[0]].asn, nodes[way[1]].asn
        for asn, prefixes in passed.items():
            known = roles.role(own, asn), roles.role(own, to)
            if CUSTOMER not in known and None in known:
                asns, listed = found.setdefault(way, ({}, {}))
                asns[asn] = None
                listed.update(dict.fromkeys(prefixes))
    for way, (asns, listed) in found.items():
        text = "%s tells %s of AS %d routes of %s: %s" % (
            shown(way[0]), shown(way[1]), nodes[way[1]].asn, named(["AS %d" % asn for asn in asns]), named(list(listed)))
        look = "roles in --invariants, as `customer AS%d`" % next(iter(asns))
        yield Finding("transit", text, look, len(listed), way[0], tuple(listed))
